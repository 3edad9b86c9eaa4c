//! Tables of rules. Loading: against plain lines, in the Rust's columns. Sections by the four loaded: against the Rust. Sections by other rules: against
//! the model, in the Rust's columns. In the rows whose names begin with "against", the port by the four stands there.

use crate::rows::{Calls, Plan, Row, calls, plan};
use crate::sections::{Make, SHAPES, port_summary, rust_summary, summary};
use inputs::random::Random;
use inputs::ruled::{
    self, Rule, Table, by, names_alike, names_alike_at_both_ends, names_of_a_deep_tree,
};
use inputs::section::Section;
use inputs::shapes;
use oracle::evr0_ruled;
use oracle::rules::load;
use port::section::{decode_evr0_unmarked, decode_evr0_unmarked_by_rules};
use std::cell::RefCell;
use std::hint::black_box;

/// Proofs of a large section whose names have 64 bytes: 40,000 would pass the payload's limit.
const FEWER: u32 = 20_000;

const FEWER_SHAPES: [(&str, Make); 3] = [
    ("joins in 125 layers", |r| shapes::layers(r, 125, 160)),
    ("witnesses and OPs", |r| shapes::witnesses_and_ops(r, FEWER)),
    ("OPs on one witness", |r| shapes::ops_on_one(r, FEWER)),
];

type Names = fn(usize) -> Vec<Vec<u8>>;

const NAMES: [(&str, Names); 4] = [
    ("32 names that share 62 bytes", names_alike),
    (
        "32 names that differ in the middle",
        names_alike_at_both_ends,
    ),
    ("32 names of a deep tree", names_of_a_deep_tree),
    ("32 short names", |count| {
        (0..count).map(|n| vec![b'A' + n as u8]).collect()
    }),
];

pub fn rows() -> Vec<Plan> {
    let mut rows = vec![loading("the four", || four().bytes())];
    for (name, names) in NAMES {
        rows.push(loading(name, move || table(names).bytes()));
    }
    rows.push(four_loaded("specimen 4", shapes::two_proofs));
    for (name, make) in SHAPES {
        rows.push(four_loaded(&format!("40,000 proofs, {name}"), make));
    }
    for (name, make) in SHAPES {
        let name = format!("against the four, the four loaded, 40,000 proofs, {name}");
        rows.push(against(&name, four, make));
    }
    for (named, names) in NAMES {
        for (name, make) in FEWER_SHAPES {
            let name = format!("20,000 proofs, {name}");
            let row = format!("section by {named}, {name}, tables fitted");
            rows.push(model(&row, move || table(names), make));
            let row = format!("against the four, {named}, {name}");
            rows.push(against(&row, move || table(names), make));
        }
    }
    rows
}

/// The four, the last of which stands first.
fn four() -> Table {
    let mut rules = ruled::four().to_vec();
    rules.rotate_right(1);
    Table::new(rules)
}

/// Rules of each shape by turns.
fn table(names: Names) -> Table {
    let names = names(32).into_iter().zip(ruled::SHAPES.iter().cycle());
    Table::new(
        names
            .map(|(name, numbers)| Rule::new(&name, *numbers))
            .collect(),
    )
}

fn loading(name: &str, table: impl Fn() -> Vec<u8> + 'static) -> Plan {
    plan(&format!("rules loaded, {name}"), move |name| {
        let (table, same) = (table(), table());
        Row {
            name,
            bytes: table.len(),
            rust: calls(move || load(black_box(&same)).map_or(0, |rules| rules.len() as u64)),
            port: calls(move || falgnust::calls::load_rules(black_box(&table)).count as u64),
        }
    })
}

/// The Rust, and the port by the four loaded.
fn four_loaded(name: &str, make: Make) -> Plan {
    let name = format!("section by the four loaded, {name}, tables fitted");
    plan(&name, move |name| {
        let section = make(&mut Random::new(1));
        let file = section.bytes();
        Row {
            name,
            bytes: file.len(),
            port: by_table(section, four().bytes(), false),
            rust: calls(move || rust_summary(black_box(&file))),
        }
    })
}

/// The model, and the port by the same rules.
fn model(name: &str, table: impl Fn() -> Table + 'static, make: Make) -> Plan {
    plan(name, move |name| {
        let section = ruled_section(&table(), make);
        let (file, bytes) = (section.bytes(), table().bytes());
        let rules = load(&bytes).expect("a table that loads");
        Row {
            name,
            bytes: file.len(),
            port: by_table(section, bytes, false),
            rust: calls(move || {
                let mut cursor = 0;
                let decoded =
                    evr0_ruled::decode_evr0_section(&rules, black_box(&file), &mut cursor);
                summary(decoded, cursor)
            }),
        }
    })
}

/// The port by the four on a section, and by a table on the section by its rules.
fn against(name: &str, table: impl Fn() -> Table + 'static, make: Make) -> Plan {
    plan(name, move |name| {
        let section = make(&mut Random::new(1));
        let file = section.bytes();
        let tables = RefCell::new(tables(&section));
        let ruled = ruled_section(&table(), make);
        Row {
            name,
            bytes: ruled.bytes().len(),
            rust: calls(move || {
                let [propositions, proofs, depths] = &mut *tables.borrow_mut();
                let file = black_box(&file);
                let answer = decode_evr0_unmarked(file, 0, propositions, proofs, depths);
                port_summary(answer).min(1)
            }),
            port: by_table(ruled, table().bytes(), true),
        }
    })
}

fn ruled_section(table: &Table, make: Make) -> Section {
    let r = &mut Random::new(1);
    let section = make(r);
    by(r, table, section)
}

/// Tables that are as long as a section's counts.
fn tables(section: &Section) -> [Vec<u64>; 3] {
    let proofs = section.proofs.len();
    [section.propositions.len(), proofs, proofs].map(|room| vec![0; room])
}

/// Calls of the port by a table, on a section that it accepts; with a summary of at most 1 where another section stands beside it.
fn by_table(section: Section, table: Vec<u8>, is_one: bool) -> Calls {
    let (file, lent) = (section.bytes(), RefCell::new(tables(&section)));
    let call = move |file: &[u8]| {
        let [propositions, proofs, depths] = &mut *lent.borrow_mut();
        decode_evr0_unmarked_by_rules(black_box(&table), file, 0, propositions, proofs, depths)
    };
    let most = if is_one { 1 } else { u64::MAX };
    assert!(call(&file).0.is_ok(), "an accepted section");
    calls(move || port_summary(call(black_box(&file))).min(most))
}

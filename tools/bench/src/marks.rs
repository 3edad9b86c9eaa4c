//! Sections with marks: against the Rust, which has none; and, in the rows whose names begin with "against", against the port itself, in the
//! Rust's columns.

use crate::rows::{Calls, Plan, Row, calls, plan};
use crate::sections::{Make, SHAPES, port_summary, rust_summary};
use inputs::marked::{chain_of_joins, joins_upon_joins, with_a_second_proposition};
use inputs::random::Random;
use inputs::shapes;
use port::section::{authorised, decode_evr0_section, decode_evr0_unmarked};
use std::cell::RefCell;
use std::hint::black_box;

/// Two witnesses and two joins in each of 100 layers, and chains of as many proofs: of OPs, and of joins, which have as many bytes.
const JOINS: Make = |r| joins_upon_joins(r, 100, [true, false]);
const CHAIN: Make = |r| shapes::chain(r, 202);
const CHAINED: Make = |r| chain_of_joins(r, 200, [true, false]);

/// 40,000 proofs of mark 1, and a last proposition that has none.
const UNPROVED: Make = |r| with_a_second_proposition(shapes::ops_on_one(r, 40_000));

pub fn rows() -> Vec<Plan> {
    let mut rows = Vec::new();
    for (name, make) in SHAPES {
        rows.push(with_marks(&format!("40,000 proofs, {name}"), make));
    }
    rows.push(with_marks("200 joins upon joins", JOINS));
    rows.push(with_marks("chain of 202 proofs", CHAIN));
    for (name, make) in SHAPES {
        let name = format!("against no marks, 40,000 proofs, {name}");
        rows.push(against(&name, (make, Lent::unmarked), (make, Lent::marked)));
    }
    for (name, make) in [
        ("200 joins upon joins", JOINS),
        ("chain of 202 proofs", CHAIN),
    ] {
        let name = format!("against no marks, {name}");
        rows.push(against(&name, (make, Lent::unmarked), (make, Lent::marked)));
    }
    for (name, chain) in [("202 proofs", CHAIN), ("200 joins", CHAINED)] {
        let name = format!("against a chain of {name}, 200 joins upon joins");
        rows.push(against(&name, (chain, decoded), (JOINS, decoded)));
    }
    for (name, make) in SHAPES {
        let name = format!("against the decoder with marks, authorised, {name}");
        rows.push(against(&name, (make, decoded), (make, asked)));
    }
    let name = "against the decoder with marks, authorised, no proof of the proposition";
    rows.push(against(name, (UNPROVED, decoded), (UNPROVED, asked)));
    rows
}

/// A call of the port: equal results have equal summaries.
type Call = fn(&mut Lent, &[u8]) -> u64;

/// The Rust, and the port with marks.
fn with_marks(name: &str, make: Make) -> Plan {
    let name = format!("section with marks, {name}, tables fitted");
    plan(&name, move |name| {
        let file = file(make);
        let (bytes, port) = (file.len(), port(file.clone(), Lent::marked));
        let rust = calls(move || rust_summary(black_box(&file)));
        Row {
            name,
            bytes,
            rust,
            port,
        }
    })
}

/// The port twice: the second is what the row is about.
fn against(name: &str, first: (Make, Call), second: (Make, Call)) -> Plan {
    plan(name, move |name| Row {
        name,
        bytes: file(second.0).len(),
        rust: port(file(first.0), first.1),
        port: port(file(second.0), second.1),
    })
}

fn file(make: Make) -> Vec<u8> {
    make(&mut Random::new(1)).bytes()
}

/// Calls of the port on a section, whose marks are first held to the plain lines.
fn port(file: Vec<u8>, call: Call) -> Calls {
    let (section, decoded) = oracle::section::section(&file, 0).expect("an accepted section");
    let [propositions, proofs, ..] = section.head.counts;
    let mut lent = Lent {
        tables: [propositions, proofs, proofs].map(|room| vec![0; room]),
        marks: vec![0; proofs],
    };
    lent.marked(&file);
    assert_eq!(lent.marks, oracle::marks::marks(&decoded), "the marks");
    let lent = RefCell::new(lent);
    calls(move || call(&mut lent.borrow_mut(), black_box(&file)))
}

/// Tables that are as long as a section's counts.
struct Lent {
    tables: [Vec<u64>; 3],
    marks: Vec<u8>,
}

impl Lent {
    fn marked(&mut self, file: &[u8]) -> u64 {
        let [propositions, proofs, depths] = &mut self.tables;
        let marks = &mut self.marks;
        port_summary(decode_evr0_section(
            file,
            0,
            propositions,
            proofs,
            depths,
            marks,
        ))
    }

    fn unmarked(&mut self, file: &[u8]) -> u64 {
        let [propositions, proofs, depths] = &mut self.tables;
        port_summary(decode_evr0_unmarked(file, 0, propositions, proofs, depths))
    }
}

/// Whether the last proposition is authorised.
fn asked(lent: &mut Lent, file: &[u8]) -> u64 {
    let last = lent.tables[0].len() as u32 - 1;
    authorised(file, 0, last, &mut lent.tables, &mut lent.marks).is_ok() as u64
}

/// The decoder with marks, where the answers differ.
fn decoded(lent: &mut Lent, file: &[u8]) -> u64 {
    lent.marked(file).min(1)
}

//! Tables of rules, which the Rust does not have: whether each loads, held to plain lines (tools/oracle/plain/rules.rs), and sections by the rules
//! of those that do, held to a copy of the Rust in which the caller's rules stand for the four (`evr0_ruled`).

use crate::by::By;
use crate::section_binding::{rust_told, told};
use crate::section_compare::{call_marked_by, compare_as, expected, rooms, what};
use crate::tally::{Outcome, Tally, hex};
use answers::Answer;
use answers::refusal::{Kind, Refusal};
use falgnust::calls;
use falgnust::evr0::RuleTable;
use falgnust::raw;
use inputs::cases::SectionCase;
use inputs::random::Random;
use inputs::ruled::{self, Rule, SHAPES, Table};
use inputs::section_conditions::counts_passed;
use inputs::shapes;
use inputs::text::{CONTROLS, ILL_FORMED};
use oracle::rules;
use oracle::section::Judge;

/// Sections, and tables, at random for one of the count.
const SECTIONS: usize = 4;
const TABLES: usize = 1;

/// How many more are looked at for conditions that were met too seldom, for each one of the count.
const TRIES: usize = 20;

/// Each way in which bytes are no table, a refusal of each number by other rules, and a table that is refused before a section.
const REACHABLE: [Outcome; 50] = [
    (0, LOADED),
    (69, "no bytes"),
    (69, "count 0"),
    (69, "count above 32"),
    (69, "a name's length cut"),
    (69, "a name empty"),
    (69, "a name cut"),
    (69, "a name above 64 bytes"),
    (69, "a name not UTF-8"),
    (69, "a control character"),
    (69, "a rule's numbers cut"),
    (69, "a rule's shape"),
    (69, "an operation above 1"),
    (69, "bytes left over"),
    (70, "a name twice"),
    (69, BEFORE),
    (70, BEFORE),
    (0, OTHER),
    (1, OTHER),
    (2, OTHER),
    (3, OTHER),
    (4, OTHER),
    (5, OTHER),
    (6, OTHER),
    (7, OTHER),
    (8, OTHER),
    (9, OTHER),
    (10, OTHER),
    (11, OTHER),
    (12, OTHER),
    (13, OTHER),
    (16, OTHER),
    (17, OTHER),
    (18, OTHER),
    (19, OTHER),
    (20, OTHER),
    (20, "one of the four, by other rules"),
    (21, OTHER),
    (22, OTHER),
    (23, OTHER),
    (24, OTHER),
    (25, OTHER),
    (26, OTHER),
    (27, OTHER),
    (28, OTHER),
    (29, OTHER),
    (61, MARKS),
    (0, MARKED),
    (0, "by 32 other rules"),
    (0, "by one other rule"),
];

const LOADED: &str = "loaded";
const BEFORE: &str = "before a section";
const OTHER: &str = "by other rules";
const MARKS: &str = "one short, marks alone, no Rust side";
const MARKED: &str = "marks";

pub fn run(r: &mut Random, count: usize) -> Tally {
    let mut tally = Tally::alone("rules", &REACHABLE);
    fixed(&mut tally, r);
    for _ in 0..count / TABLES {
        let table = any_table(r);
        load(&mut tally, &table);
        if tally.inputs().is_multiple_of(4) {
            before_a_section(&mut tally, r, &table);
        }
    }
    for _ in 0..count / SECTIONS {
        let (table, case) = ruled::section(r);
        section(&mut tally, &table.bytes(), &case);
    }
    large(&mut tally, r);
    seldom(&mut tally, r, count);
    tally
}

/// A table, and a section by its rules or, where it is refused, beside it.
pub fn compare(tally: &mut Tally, table: &[u8], case: &SectionCase) {
    load(tally, table);
    match rules::load(table) {
        Ok(_) => section(tally, table, case),
        Err((number, _)) => refused_table::compare(tally, table, case, refusal(number)),
    }
}

/// A table, often damaged.
fn any_table(r: &mut Random) -> Vec<u8> {
    let table = ruled::table(r);
    match r.below(4) {
        0 => table.bytes(),
        _ => ruled::damaged(r, table).bytes(),
    }
}

/// More of the conditions that were met too seldom.
fn seldom(tally: &mut Tally, r: &mut Random, count: usize) {
    for _ in 0..TRIES * count {
        if tally.too_few().is_empty() {
            return;
        }
        let table = any_table(r);
        match rules::load(&table) {
            Err(wrong) if tally.lacks(wrong) => load(tally, &table),
            Err((number, _)) if tally.lacks((number, BEFORE)) => before_a_section(tally, r, &table),
            _ => (),
        }
        let (table, case) = ruled::section(r);
        let table = table.bytes();
        let loaded = rules::load(&table).expect("a table that loads");
        let judge = Judge::Ruled(&loaded).of(&case.file, case.cursor);
        let rust = judge.section(&case.file, case.cursor);
        if tally.lacks(outcome(&case, loaded.len(), &rust)) {
            section(tally, &table, &case);
        }
        tally.progress();
    }
}

// ---- The loader

/// Through C and through the crate.
fn load(tally: &mut Tally, table: &[u8]) {
    let plain = rules::load(table);
    tally.input(match &plain {
        Ok(_) => (0, LOADED),
        Err(wrong) => *wrong,
    });
    let due = match &plain {
        Ok(rules) => raw::Rules {
            accepted: true,
            count: rules.len(),
            ..Default::default()
        },
        Err((number, _)) => raw::Rules {
            refusal: refusal(*number),
            ..Default::default()
        },
    };
    tally.same(&due, &calls::load_rules(table), || hex(table));
    let due = plain.map(|rules| rules.len());
    let due = due.map_err(|(number, _)| (Some(number), 0));
    let port = RuleTable::load(table);
    let port = port.map(|table| table.count());
    let port = port.map_err(|error| (error.number(), error.offset));
    tally.same(&due, &port, || format!("the binding, {}", hex(table)));
}

fn refusal(number: u8) -> raw::Refusal {
    raw::Refusal {
        kind: Kind::Added as u8,
        number,
        offset: 0,
    }
}

/// A table that is refused, given with a section, or with bytes that are none: each call refuses as the loader does, and all tables are zeros.
fn before_a_section(tally: &mut Tally, r: &mut Random, table: &[u8]) {
    let Err((number, _)) = rules::load(table) else {
        return;
    };
    let case = inputs::cases::section(r);
    tally.input((number, BEFORE));
    refused_table::compare(tally, table, &case, refusal(number));
}

/// Tables that are made one by one.
fn fixed(tally: &mut Tally, r: &mut Random) {
    short_strings(tally);
    two_rules(tally);
    numbers(tally);
    names(tally);
    counts(tally);
    both_numbers(tally);
    for table in [Table::new(ruled::four().to_vec()), many_bytes(), alike()] {
        let bytes = table.bytes();
        for end in 0..=bytes.len() {
            load(tally, &bytes[..end]);
            before_a_section(tally, r, &bytes[..end]);
        }
        let mut changed = bytes.clone();
        for at in 0..bytes.len() {
            for change in 1..=255 {
                changed[at] = bytes[at] ^ change;
                load(tally, &changed);
            }
            changed[at] = bytes[at];
        }
    }
}

/// Names of characters of 1 to 4 bytes.
fn many_bytes() -> Table {
    let names = [
        "k",
        "\u{e5}\u{e4}\u{f6}",
        "\u{20ac}-1",
        "\u{1f600}",
        "\u{10ffff}k",
    ];
    let rules = names.iter().zip(SHAPES);
    Table::new(
        rules
            .map(|(name, numbers)| Rule::new(name.as_bytes(), numbers))
            .collect(),
    )
}

/// 32 names of 64 bytes that share the first 62.
fn alike() -> Table {
    let names = ruled::names_alike(32)
        .into_iter()
        .zip(SHAPES.iter().cycle());
    Table::new(
        names
            .map(|(name, numbers)| Rule::new(&name, *numbers))
            .collect(),
    )
}

/// Every string of up to two bytes, and every one of up to nine of these four.
fn short_strings(tally: &mut Tally) {
    load(tally, &[]);
    for first in 0..=255 {
        load(tally, &[first]);
        for second in 0..=255 {
            load(tally, &[first, second]);
        }
    }
    for length in 3..=9u32 {
        for number in 0..4usize.pow(length) {
            let byte = |place| [0, 1, 2, b'a'][number / 4usize.pow(place) % 4];
            let table: Vec<u8> = (0..length).map(byte).collect();
            load(tally, &table);
        }
    }
}

/// Two rules of every pair of shapes, with names that are the same, or not, or not quite, and one byte more or less.
fn two_rules(tally: &mut Tally) {
    let names: [&[u8]; 7] = [b"a", b"b", b"aa", b"ab", b"a\xcc\x8a", b"\xc3\xa5", b"A"];
    for first in names {
        for second in names {
            for one in SHAPES {
                for other in SHAPES {
                    let rules = vec![Rule::new(first, one), Rule::new(second, other)];
                    let mut bytes = Table::new(rules).bytes();
                    load(tally, &bytes);
                    bytes.push(0);
                    load(tally, &bytes);
                    load(tally, &bytes[..bytes.len() - 2]);
                }
            }
        }
    }
}

/// All combinations of small and some large numbers, in the first and in the last of three rules.
fn numbers(tally: &mut Tally) {
    const EACH: [u8; 8] = [0, 1, 2, 3, 4, 127, 128, 255];
    for number in 0..EACH.len().pow(4) {
        let at = |place: u32| EACH[number / EACH.len().pow(place) % EACH.len()];
        let numbers = [at(0), at(1), at(2), at(3)];
        for place in [0, 2] {
            let mut rules: Vec<Rule> = [b"a", b"b", b"c"]
                .map(|name| Rule::new(name, SHAPES[0]))
                .to_vec();
            rules[place].numbers = numbers;
            load(tally, &Table::new(rules).bytes());
        }
    }
}

/// Every scalar value as a name; names of 62 to 66 bytes, of characters of each length; controls and ill-formed bytes at each place.
fn names(tally: &mut Tally) {
    let one = |tally: &mut Tally, name: &[u8]| {
        load(tally, &Table::new(vec![Rule::new(name, SHAPES[1])]).bytes());
    };
    for character in '\0'..=char::MAX {
        one(tally, character.to_string().as_bytes());
    }
    for character in ["a", "\u{e5}", "\u{20ac}", "\u{1f600}"] {
        for length in 62..=66usize {
            let mut name = character.repeat(length / character.len()).into_bytes();
            name.resize(length, b'a');
            one(tally, &name);
        }
        one(tally, character.repeat(64).as_bytes());
        one(tally, character.repeat(65).as_bytes());
    }
    for length in [1, 2, 7, 60] {
        for at in 0..=length {
            let around = |bytes: &[u8]| [&vec![b'n'; at], bytes, &vec![b'n'; length - at]].concat();
            for control in CONTROLS {
                one(tally, &around(control.to_string().as_bytes()));
            }
            for bytes in ILL_FORMED {
                one(tally, &around(bytes));
            }
        }
    }
}

/// 0 to 40 rules, and every count before 31 to 33 of them.
fn counts(tally: &mut Tally) {
    let rules: Vec<Rule> = (0..40)
        .map(|n| Rule::new(&[b'A' + n], SHAPES[n as usize % 8]))
        .collect();
    for count in 0..=40 {
        load(tally, &Table::new(rules[..count].to_vec()).bytes());
    }
    for count in 31..=33 {
        let mut table = Table::new(rules[..count].to_vec());
        for written in 0..=255 {
            table.count = Some(written);
            load(tally, &table.bytes());
        }
    }
}

/// 69 and 70 in one table: one name twice, and one rule outside its bounds or cut, at every three places.
fn both_numbers(tally: &mut Tally) {
    let five: Vec<Rule> = (0..5).map(|n| Rule::new(&[b'a' + n], SHAPES[0])).collect();
    for first in 0..5 {
        for again in first + 1..5 {
            for wrong in 0..5 {
                let mut table = Table::new(five.clone());
                table.rules[again].name = table.rules[first].name.clone();
                let twice = table.bytes();
                table.rules[wrong].numbers = [1, 0, 0, 2];
                load(tally, &table.bytes());
                for end in 0..twice.len() {
                    load(tally, &twice[..end]);
                }
                for count in [4, 6, 33] {
                    table.count = Some(count);
                    load(tally, &table.bytes());
                }
            }
        }
    }
}

// ---- Sections by other rules

pub fn section(tally: &mut Tally, table: &[u8], case: &SectionCase) {
    let rules = rules::load(table).expect("a table that loads");
    let loaded = match RuleTable::load(table) {
        Ok(loaded) => loaded,
        Err(error) => {
            tally.same(&Ok(rules.len()), &Err(error), || hex(table));
            return;
        }
    };
    let by = By::table(&loaded, &rules).of(&case.file, case.cursor);
    let rust = by.expected(&case.file, case.cursor);
    let of = outcome(case, rules.len(), &rust);
    compare_as(tally, case, by, rust, of);
    marks(tally, case, by);
}

/// Of a section by so many rules.
fn outcome<T>(case: &SectionCase, rules: usize, answer: &Answer<T>) -> Outcome {
    match answer {
        Ok(_) if rules == 32 => (0, "by 32 other rules"),
        Ok(_) if rules == 1 => (0, "by one other rule"),
        Ok(_) => (0, OTHER),
        Err(refusal) if refusal.number == 20 && is_one_of_four(case, refusal.offset) => {
            (20, "one of the four, by other rules")
        }
        Err(refusal) => (refusal.number, OTHER),
    }
}

/// Whether the proof at a place of the file has one of the four for its rule.
fn is_one_of_four(case: &SectionCase, place: usize) -> bool {
    let name = &case.file[place + 10..];
    ruled::four()
        .iter()
        .any(|rule| name.starts_with(&rule.name.bytes))
}

/// The marks of a section by these rules, in tables that are exact and one longer, and 61 by the marks alone; through the crate, too.
pub fn marks(tally: &mut Tally, case: &SectionCase, by: By) {
    let rust = by.expected(&case.file, case.cursor);
    let marks = match &rust {
        Ok((_, decoded)) => oracle::marks::marks(decoded),
        Err(_) => vec![],
    };
    let due = rust_told(by.rust(&case.file, &mut case.cursor.clone()));
    let due = due.map(|_| marks.clone());
    let port = told(by.crate_marks(&case.file, case.cursor));
    tally.same(&due, &port, || {
        format!("the binding, marks, {}{}", by.told(), what(case))
    });
    let rooms = rooms(case);
    let rust = rust.map(|(section, _)| section);
    let proofs = match &rust {
        Ok(section) => section.head.counts[1],
        Err(_) => rooms[2],
    };
    let mut same = |of: Outcome, due: &Answer<_>, marks: &[u8], room: usize| {
        tally.input(of);
        let due = (expected(case, due, rooms), oracle::marks::lent(marks, room));
        let port = call_marked_by(case, by, rooms, room);
        tally.same(&due, &port, || {
            format!("marks {room}, {}{}", by.told(), what(case))
        });
    };
    let of = match &rust {
        Ok(_) => (0, MARKED),
        Err(refusal) => (refusal.number, "marks, zeros"),
    };
    same(of, &rust, &marks, proofs);
    same(of, &rust, &marks, proofs + 1);
    if let Some((counts, offset)) = counts_passed(&case.file, case.cursor, &rust)
        && counts[1] > 0
    {
        let short = Refusal {
            kind: Kind::Added,
            number: 61,
            offset,
        };
        same((61, MARKS), &Err(short), &[], counts[1] as usize - 1);
    }
}

/// Large sections by 32 names that share 62 bytes, and by 32 that differ in the middle.
fn large(tally: &mut Tally, r: &mut Random) {
    for names in [ruled::names_alike(32), ruled::names_alike_at_both_ends(32)] {
        let rules = names.iter().zip(SHAPES.iter().cycle());
        let table = Table::new(
            rules
                .map(|(name, numbers)| Rule::new(name, *numbers))
                .collect(),
        );
        for shape in [
            shapes::layers(r, 250, 160),
            shapes::layers(r, 257, 10),
            shapes::witnesses_and_ops(r, 40_000),
            shapes::ops_on_one(r, 65_536),
            shapes::chain(r, 256),
            shapes::chain(r, 257),
        ] {
            let file = ruled::by(r, &table, shape).bytes();
            section(tally, &table.bytes(), &SectionCase { file, cursor: 0 });
        }
    }
}

mod refused_table;

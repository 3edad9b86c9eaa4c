//! Sections by column: writing and taking back, against the port's decoder on the same section, or on one of half its size; these stand in the Rust's
//! columns.

use crate::rows::{Calls, Plan, Row, calls, plan};
use crate::sections::{Make, SHAPES, port_summary};
use falgnust::calls::{SectionTables, take_columns, write_columns};
use inputs::random::Random;
use inputs::section::Section;
use inputs::shapes;
use inputs::wide::twin;
use oracle::columns;
use port::section::decode_evr0_unmarked;
use std::cell::RefCell;
use std::hint::black_box;

const HALVES: [(&str, Make, Make); 4] = [
    (
        "joins in 250 layers",
        |r| shapes::layers(r, 250, 80),
        |r| shapes::layers(r, 250, 160),
    ),
    (
        "witnesses and OPs",
        |r| shapes::witnesses_and_ops(r, 20_000),
        |r| shapes::witnesses_and_ops(r, 40_000),
    ),
    (
        "OPs on one witness",
        |r| shapes::ops_on_one(r, 20_000),
        |r| shapes::ops_on_one(r, 40_000),
    ),
    (
        "propositions alone",
        |r| shapes::many_propositions(r, 32_000, 40),
        |r| shapes::many_propositions(r, 64_000, 40),
    ),
];

pub fn rows() -> Vec<Plan> {
    let mut rows = vec![];
    for (way, call) in [("writing", writing as Way), ("taking back", taking)] {
        let name = format!("against the decoder, {way}, specimen 4");
        rows.push(against_decoder(&name, shapes::two_proofs, call));
        for (name, make) in SHAPES {
            let name = format!("against the decoder, {way}, 40,000 proofs, {name}");
            rows.push(against_decoder(&name, make, call));
        }
        let name = format!("against the decoder, {way}, 64,000 propositions");
        rows.push(against_decoder(&name, HALVES[3].2, call));
        let name = format!("against the decoder, {way}, schema 2, 40,000 proofs");
        rows.push(against_decoder(&name, schema_2, call));
        for (name, half, whole) in HALVES {
            let name = format!("against half of it, {way}, {name}");
            rows.push(against_half(&name, half, whole, call));
        }
    }
    rows
}

fn schema_2(r: &mut Random) -> Section {
    twin(&shapes::witnesses_and_ops(r, 40_000)).expect("a twin of schema 2")
}

type Way = fn(&Section) -> Calls;

fn against_decoder(name: &str, make: Make, way: Way) -> Plan {
    plan(name, move |name| {
        let section = make(&mut Random::new(1));
        Row {
            name,
            bytes: section.bytes().len(),
            rust: decoding(&section),
            port: way(&section),
        }
    })
}

fn against_half(name: &str, half: Make, whole: Make, way: Way) -> Plan {
    plan(name, move |name| {
        let section = whole(&mut Random::new(1));
        Row {
            name,
            bytes: section.bytes().len(),
            rust: way(&half(&mut Random::new(1))),
            port: way(&section),
        }
    })
}

/// Tables that are as long as a section's counts.
fn tables(section: &Section) -> [Vec<u64>; 3] {
    let proofs = section.proofs.len();
    [section.propositions.len(), proofs, proofs].map(|room| vec![0; room])
}

fn lent([propositions, proofs, depths]: &mut [Vec<u64>; 3]) -> SectionTables<'_> {
    SectionTables {
        propositions,
        proofs,
        depths,
    }
}

/// Each call is accepted, and its summary 1.
fn decoding(section: &Section) -> Calls {
    let (file, tables) = (section.bytes(), RefCell::new(tables(section)));
    calls(move || {
        let [propositions, proofs, depths] = &mut *tables.borrow_mut();
        let answer = decode_evr0_unmarked(black_box(&file), 0, propositions, proofs, depths);
        port_summary(answer).min(1)
    })
}

fn writing(section: &Section) -> Calls {
    let file = section.bytes();
    let lends = RefCell::new((tables(section), vec![0; columns::write(&file).len()]));
    calls(move || {
        let (tables, output) = &mut *lends.borrow_mut();
        let written = write_columns(black_box(&file), 0, lent(tables), output);
        u64::from(written.accepted)
    })
}

fn taking(section: &Section) -> Calls {
    let file = section.bytes();
    let columns = columns::write(&file);
    let lends = RefCell::new((tables(section), vec![0; file.len()]));
    calls(move || {
        let (tables, output) = &mut *lends.borrow_mut();
        let taken = take_columns(black_box(&columns), lent(tables), output);
        u64::from(taken.accepted)
    })
}

//! Sections of schema 2: against the model, in the Rust's columns; and, in the rows whose names begin with "against", against the port on the twin
//! of schema 1, which has 8 bytes less for each witness.

use crate::rows::{Calls, Plan, Row, calls, plan};
use crate::sections::{Make, SHAPES, port_summary};
use inputs::random::Random;
use inputs::section::Section;
use inputs::{shapes, wide};
use oracle::evr0_wide::decode_evr0_section;
use oracle::section::Judge;
use port::section::decode_evr0_unmarked;
use std::cell::RefCell;
use std::hint::black_box;

pub fn rows() -> Vec<Plan> {
    let large = SHAPES.map(|(name, make)| (format!("40,000 proofs, {name}"), make));
    let specimen: (String, Make) = ("specimen 4".into(), shapes::two_proofs);
    let shapes = || large.iter().cloned().chain([specimen.clone()]);
    let of_model = shapes().map(|(name, make)| model(&name, make));
    let of_twins = shapes().map(|(name, make)| against(&name, make));
    let of_crate = shapes().map(|(name, make)| through_crate(&name, make));
    of_model.chain(of_twins).chain(of_crate).collect()
}

/// The section, and its twin of schema 2.
fn twins(make: Make) -> [Section; 2] {
    let section = make(&mut Random::new(1));
    let twin = wide::twin(&section).expect("a twin");
    [section, twin]
}

fn model(name: &str, make: Make) -> Plan {
    let name = format!("section of schema 2, {name}, tables fitted");
    plan(&name, move |name| {
        let [_, twin] = twins(make);
        let file = twin.bytes();
        Row {
            name,
            bytes: file.len(),
            port: port(&twin, u64::MAX),
            rust: calls(move || {
                let mut cursor = 0;
                let d = decode_evr0_section(black_box(&file), &mut cursor).expect("accepted");
                let counts =
                    d.propositions.len() + d.proofs.len() + d.witnesses.len() + d.parents.len();
                (counts + d.epoch as usize + cursor) as u64
            }),
        }
    })
}

fn against(name: &str, make: Make) -> Plan {
    let name = format!("against schema 1, schema 2, {name}");
    plan(&name, move |name| {
        let [section, twin] = twins(make);
        Row {
            name,
            bytes: twin.bytes().len(),
            rust: port(&section, 1),
            port: port(&twin, 1),
        }
    })
}

fn through_crate(name: &str, make: Make) -> Plan {
    let name = format!("against schema 1, schema 2 through the crate, {name}");
    plan(&name, move |name| {
        let [section, twin] = twins(make);
        let decoded = |section: Section| {
            let file = section.bytes();
            calls(move || {
                let decoded = falgnust::evr0::decode_evr0_section(black_box(&file), &mut 0);
                decoded.expect("accepted").witnesses.len() as u64
            })
        };
        Row {
            name,
            bytes: twin.bytes().len(),
            rust: decoded(section),
            port: decoded(twin),
        }
    })
}

/// Calls of the port, with tables as long as the counts, on a section of either schema, whose tables are first held to the Rust or to the model;
/// with a summary of at most so much.
fn port(section: &Section, most: u64) -> Calls {
    let file = section.bytes();
    let judge = Judge::Rust.of(&file, 0);
    let (answer, _) = judge.section(&file, 0).expect("accepted");
    let [propositions, proofs, ..] = answer.head.counts;
    let mut tables = [propositions, proofs, proofs].map(|room| vec![0; room]);
    let mut call = move |file: &[u8]| {
        let [propositions, proofs, depths] = &mut tables;
        let called = decode_evr0_unmarked(file, 0, propositions, proofs, depths);
        (called, depths.last().copied())
    };
    let ((head, cursor), last) = call(&file);
    assert_eq!((head, cursor), (Ok(answer.head), answer.cursor));
    assert_eq!(last, answer.tables.depths.last().copied());
    let call = RefCell::new(call);
    calls(move || port_summary(call.borrow_mut()(black_box(&file)).0).min(most))
}

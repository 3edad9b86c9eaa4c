//! Depth by rounds, which the Rust does not have: against the port's decoder, in the Rust's columns.

use crate::rows::{Plan, Row, calls, plan};
use crate::sections::{Make, SHAPES};
use falgnust::calls::{SectionTables, decode_evr0_unmarked, depth_by_rounds};
use inputs::random::Random;
use inputs::shapes;
use std::cell::RefCell;
use std::hint::black_box;

/// Joins in layers, the witnesses counted: at most 10, and the worst shape.
const LAYERS: [(&str, Make); 4] = [
    ("10 layers of 4,000", |r| shapes::layers(r, 10, 4000)),
    ("2 layers of 20,000", |r| shapes::layers(r, 2, 20_000)),
    ("256 layers of 256", |r| shapes::layers(r, 256, 256)),
    ("chain of 256 proofs", |r| shapes::chain(r, 256)),
];

pub fn rows() -> Vec<Plan> {
    let shapes = SHAPES
        .into_iter()
        .map(|(name, make)| (format!("40,000 proofs, {name}"), make));
    let layers = LAYERS
        .into_iter()
        .map(|(name, make)| (name.to_string(), make));
    let rows = layers.chain(shapes);
    rows.map(|(name, make)| against(&format!("against the decoder, rounds, {name}"), make))
        .collect()
}

/// The decoder, and the rounds, which are its depths.
fn against(name: &str, make: Make) -> Plan {
    plan(name, move |name| {
        let file = make(&mut Random::new(1)).bytes();
        let (bytes, again) = (file.len(), file.clone());
        let (section, _) = oracle::section::section(&file, 0).expect("an accepted section");
        let [propositions, proofs, ..] = section.head.counts;
        let tables = [propositions, proofs, proofs].map(|room| vec![0; room]);
        let (first, second) = (RefCell::new(tables.clone()), RefCell::new(tables));
        depth_by_rounds(&file, 0, lent(&mut second.borrow_mut()));
        assert_eq!(second.borrow()[2], section.tables.depths, "the depths");
        Row {
            name,
            bytes,
            rust: calls(move || {
                let tables = &mut first.borrow_mut();
                decode_evr0_unmarked(black_box(&file), 0, lent(tables)).cursor as u64
            }),
            port: calls(move || {
                let tables = &mut second.borrow_mut();
                depth_by_rounds(black_box(&again), 0, lent(tables)).cursor as u64
            }),
        }
    })
}

fn lent([propositions, proofs, depths]: &mut [Vec<u64>; 3]) -> SectionTables<'_> {
    SectionTables {
        propositions,
        proofs,
        depths,
    }
}

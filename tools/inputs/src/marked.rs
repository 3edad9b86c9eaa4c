//! Sections by what their proofs rest on: positive witnesses alone, negative ones alone, or both.

use crate::random::Random;
use crate::section::Section;
use crate::shapes::{proposition, with_one_proposition};

/// Witness proofs, joins and OPs of one ruling: all witnesses positive, all negative, or some of each.
pub fn ruling(r: &mut Random) -> Section {
    let mut s = with_one_proposition(r);
    let sides = r.pick(&[&[true][..], &[false], &[true, false]]);
    for _ in 0..r.within(1, 14) {
        add(r, &mut s, sides);
    }
    s
}

fn add(r: &mut Random, s: &mut Section, sides: &[bool]) {
    let count = s.proofs.len();
    match r.below(3) {
        1 if count > 0 => s.op(r.below(count) as u32),
        2 if count > 1 => {
            let second = r.within(1, count - 1);
            s.join(r.below(second) as u32, second as u32);
        }
        _ => {
            let positive = r.pick(sides);
            s.witness(r, 0, 7, positive);
        }
    }
}

/// Two witness proofs and two joins in each layer, each of both proofs below: the ways down double at each layer.
pub fn joins_upon_joins(r: &mut Random, layers: u32, sides: [bool; 2]) -> Section {
    let mut s = with_one_proposition(r);
    for positive in sides {
        s.witness(r, 0, 7, positive);
    }
    for layer in 0..layers {
        let below = 2 * layer;
        s.join(below, below + 1);
        s.join(below, below + 1);
    }
    s
}

/// Two witness proofs and a chain of joins, each of the first proof and the one before: the ways down are one more at each.
pub fn chain_of_joins(r: &mut Random, joins: u32, sides: [bool; 2]) -> Section {
    let mut s = with_one_proposition(r);
    for positive in sides {
        s.witness(r, 0, 7, positive);
    }
    for before in 1..=joins {
        s.join(0, before);
    }
    s
}

/// A section with one proposition, and another after it.
pub fn with_a_second_proposition(mut s: Section) -> Section {
    s.propositions.push(proposition(b"l", [0, 0, 0]));
    s
}

/// Operations of one proposition: on a negative witness; on a join of both; on a negative witness beside one on a positive; on a join of both
/// beside one on a positive; on a negative witness beside a positive proof without operation. A second proposition has proofs of any kind.
pub fn operations(r: &mut Random) -> Section {
    let mut s = with_a_second_proposition(with_one_proposition(r));
    let form = r.below(5);
    let first = r.one_in(2);
    s.witness(r, 0, 7, first && form > 0);
    if form > 0 {
        s.witness(r, 0, 7, !first);
    }
    let (positive, negative) = (!first as u32, (first && form > 0) as u32);
    if form == 1 || form == 3 {
        s.join(0, 1);
        s.op(2);
    } else {
        s.op(negative);
    }
    if form == 2 || form == 3 {
        s.op(positive);
    }
    if r.one_in(2) {
        s.op(s.proofs.len() as u32 - 1);
    }
    for _ in 0..r.below(4) {
        let positive = r.one_in(2);
        s.witness(r, 1, 7, positive);
        if r.one_in(2) {
            s.op(s.proofs.len() as u32 - 1);
        }
    }
    s
}

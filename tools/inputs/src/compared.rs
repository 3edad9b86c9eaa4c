//! Pairs of sections, as of two compilers that translated the same sources: propositions of one pool, in both or in one of them, proved alike or not.

use crate::random::Random;
use crate::section::{Proposition, Section};
use crate::shapes::{many_propositions, order, proposition};
use crate::text::{text, well_formed};
use crate::wide::wide;

/// Two sections of one source set, of either schema. Their other digest, epoch and namespaces are not the same.
pub fn pair(r: &mut Random) -> [Section; 2] {
    let pool = pool(r);
    let mut second = section(r, &pool);
    let first = section(r, &pool);
    second.source_set = first.source_set;
    if r.one_in(6) {
        second.propositions = first.propositions.clone();
        second.proofs.clear();
        second.witnesses.clear();
        second.parents.clear();
        proofs(r, &mut second);
    }
    [first, second].map(|section| match r.one_in(4) {
        true => wide(r, section),
        false => section,
    })
}

/// Another source set, often by one bit.
pub fn other_source_set(r: &mut Random, section: &mut Section) {
    let byte = r.below(32);
    section.source_set[byte] ^= 1 << r.below(8);
    if r.one_in(3) {
        section.source_set = r.digest();
    }
}

/// Up to eight propositions, strictly rising. Their kinds begin alike, and their numbers differ in one place or in several.
fn pool(r: &mut Random) -> Vec<Proposition> {
    let kind = text(r).bytes;
    let longer = [&kind[..], &well_formed(r, 1)].concat();
    let kinds = [kind, longer, text(r).bytes];
    let number = |r: &mut Random| {
        let any = r.u32();
        r.pick(&[0, 1, 255, 256, u32::MAX, any])
    };
    let numbers = [number(r), number(r), number(r)];
    let mut pool: Vec<Proposition> = (0..r.below(9))
        .map(|_| {
            let mut numbers = numbers;
            for (place, seldom) in [(0, 4), (1, 4), (2, 2)] {
                if r.one_in(seldom) {
                    numbers[place] = number(r);
                }
            }
            let kind = r.pick(&[0, 0, 1, 2]);
            proposition(&kinds[kind], numbers)
        })
        .collect();
    pool.sort_by(|a, b| order(a).cmp(&order(b)));
    pool.dedup_by(|a, b| order(a) == order(b));
    pool
}

/// Some of the pool.
fn section(r: &mut Random, pool: &[Proposition]) -> Section {
    let mut s = Section::empty(r);
    if r.one_in(2) {
        (s.policy, s.issuer) = (text(r), text(r));
    }
    let seldom = r.pick(&[2, 4, 4]);
    let kept = pool.iter().filter(|_| !r.one_in(seldom));
    s.propositions = kept.cloned().collect();
    proofs(r, &mut s);
    s
}

/// Of each proposition, and in any order: no proof; one by a witness; an operation on a positive witness, on a negative one, on a join of both, or on each.
fn proofs(r: &mut Random, s: &mut Section) {
    let mut left: Vec<u32> = (0..s.propositions.len() as u32).collect();
    while !left.is_empty() {
        let proposition = left.swap_remove(r.below(left.len()));
        let first = s.proofs.len() as u32;
        match r.below(7) {
            0 => (),
            1 => {
                let positive = r.one_in(2);
                s.witness(r, proposition, 7, positive);
            }
            2 => on_a_witness(r, s, proposition, false),
            3 => {
                s.witness(r, proposition, 7, true);
                s.witness(r, proposition, 7, false);
                s.join(first, first + 1);
                s.op(first + 2);
            }
            4 => {
                on_a_witness(r, s, proposition, false);
                on_a_witness(r, s, proposition, true);
            }
            _ => on_a_witness(r, s, proposition, true),
        }
    }
}

/// A witness and an operation on it.
fn on_a_witness(r: &mut Random, s: &mut Section, proposition: u32, positive: bool) {
    s.witness(r, proposition, 7, positive);
    s.op(s.proofs.len() as u32 - 1);
}

/// Propositions of kinds of one byte, some of which, far from each other, have a witness each; and operations, on these witnesses by turns.
pub fn ops_over_propositions(
    r: &mut Random,
    ops: u32,
    propositions: u32,
    witnesses: u32,
) -> Section {
    let mut s = many_propositions(r, propositions, 1);
    for number in 0..witnesses {
        s.witness(r, number * (propositions / witnesses), 7, true);
    }
    for number in 0..ops {
        s.op(number % witnesses);
    }
    s
}

//! Sections: every length, schema and flags, every cut and byte change of small ones, faults one and two at once, limits, and large ones. Those of
//! schema 2 are left to wide.rs.

use crate::section_compare;
use crate::tally::{Outcome, Tally};
use inputs::cases::{self, AS_IT_IS, Form, SectionCase};
use inputs::random::Random;
use inputs::section::Section;
use inputs::section_conditions::{REACHABLE, condition};
use inputs::shapes;
use oracle::section::Judge;

/// How many more inputs are looked at for conditions that were met too seldom, for each one of the count.
const TRIES: usize = 20;

pub fn run(r: &mut Random, count: usize) -> Tally {
    let mut tally = Tally::of("sections", &REACHABLE);
    each(&mut tally, r, count, AS_IT_IS, section_compare::compare);
    tally
}

/// What compares one section.
pub type Compare = fn(&mut Tally, &SectionCase);

/// Every input of this part in a form, with so many at random.
pub fn each(tally: &mut Tally, r: &mut Random, count: usize, form: Form, compare: Compare) {
    exhaustive(tally, r, form, compare);
    for shape in [shapes::one_proof, shapes::two_proofs, shapes::joined] {
        let bytes = made(r, form, shape).bytes();
        cuts(tally, &bytes, compare);
        byte_changes(tally, &bytes, compare);
    }
    large(tally, r, form, compare);
    for _ in 0..count {
        let case = cases::section_in(r, form);
        compare(tally, &case);
    }
    for _ in 0..count / 2000 {
        let case = cases::large_section_in(r, form);
        compare(tally, &case);
    }
    seldom(tally, r, count, form, compare);
}

fn made(r: &mut Random, form: Form, shape: fn(&mut Random) -> Section) -> Section {
    let section = shape(r);
    form(r, section)
}

/// More of the conditions that were met too seldom.
fn seldom(tally: &mut Tally, r: &mut Random, count: usize, form: Form, compare: Compare) {
    for _ in 0..TRIES * count {
        if tally.too_few().is_empty() {
            return;
        }
        let case = cases::section_in(r, form);
        if tally.lacks(outcome(&case)) {
            compare(tally, &case);
        }
        tally.progress();
    }
}

fn outcome(case: &SectionCase) -> Outcome {
    let judge = Judge::Rust.of(&case.file, case.cursor);
    match judge.section(&case.file, case.cursor) {
        Ok(_) => (0, ""),
        Err(refusal) => (refusal.number, condition(&case.file, case.cursor, &refusal)),
    }
}

/// A file that starts with its section.
pub fn at_start(file: Vec<u8>) -> SectionCase {
    SectionCase { file, cursor: 0 }
}

/// Every payload length below 65,536, every schema and all flags, each on specimen 1.
fn exhaustive(tally: &mut Tally, r: &mut Random, form: Form, compare: Compare) {
    let bytes = made(r, form, Section::empty).bytes();
    for at in [4, 8, 10] {
        let mut changed = at_start(bytes.clone());
        for value in 0..=u16::MAX {
            changed.file[at..at + 2].copy_from_slice(&value.to_le_bytes());
            compare(tally, &changed);
        }
    }
}

/// Every cut, once with the payload length as it was and once with it repaired.
pub fn cuts(tally: &mut Tally, bytes: &[u8], compare: Compare) {
    for end in 0..=bytes.len() {
        let mut cut = at_start(bytes[..end].to_vec());
        compare(tally, &cut);
        if end >= 8 {
            cut.file[4..8].copy_from_slice(&(end as u32 - 8).to_le_bytes());
            compare(tally, &cut);
        }
    }
}

/// Every byte with every other value.
fn byte_changes(tally: &mut Tally, bytes: &[u8], compare: Compare) {
    let mut changed = at_start(bytes.to_vec());
    for (at, byte) in bytes.iter().enumerate() {
        for change in 1..=255 {
            changed.file[at] = byte ^ change;
            compare(tally, &changed);
        }
        changed.file[at] = *byte;
    }
}

/// Limits at one below, at and one above, and the largest tables.
fn large(tally: &mut Tally, r: &mut Random, form: Form, compare: Compare) {
    let mut all: Vec<Section> = Vec::new();
    for proofs in 255..=257 {
        all.push(shapes::chain(r, proofs));
    }
    all.push(shapes::layers(r, 250, 160));
    all.push(shapes::layers(r, 257, 10));
    all.push(shapes::witnesses_and_ops(r, 40_000));
    all.push(shapes::ops_on_one(r, 40_000));
    for proofs in 65_535..=65_537 {
        all.push(shapes::ops_on_one(r, proofs));
    }
    for count in 65_535..=65_537 {
        all.push(shapes::many_propositions(r, count, 40));
    }
    for section in all {
        let section = form(r, section);
        compare(tally, &at_start(section.bytes()));
    }
    payload_limits(tally, r, form, compare);
    count_limits(tally, r, form, compare);
}

/// Payloads of 4,194,303 to 4,194,305 bytes.
fn payload_limits(tally: &mut Tally, r: &mut Random, form: Form, compare: Compare) {
    let mut section = made(r, form, |r| shapes::many_propositions(r, 65_536, 49));
    let short = 4_194_304 - (section.bytes().len() - 8);
    for more in [short - 1, short, short + 1] {
        section.policy.bytes = vec![b'p'; 1 + more];
        compare(tally, &at_start(section.bytes()));
    }
}

/// Each count at one below, at and one above its limit, over enough bytes for its records.
fn count_limits(tally: &mut Tally, r: &mut Random, form: Form, compare: Compare) {
    for (table, limit) in [65_536, 65_536, 262_144, 262_144].into_iter().enumerate() {
        for count in [limit - 1, limit, limit + 1] {
            let mut section = made(r, form, Section::empty);
            section.counts[table] = Some(count);
            section.more = vec![0; 4_000_000];
            compare(tally, &at_start(section.bytes()));
        }
    }
}

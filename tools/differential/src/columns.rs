//! Sections by column, which the Rust does not have: what is written and what is taken back, held to plain lines (tools/oracle/plain/columns.rs).
//! Whether a section is accepted, at a cursor or as it is rebuilt, the Rust says, or the model. All of the output and of the three lent
//! tables is compared, which hold other bytes before each call.

use crate::by::By;
use crate::tally::{Outcome, Tally};
use answers::Answer;
use due::expected;
use fixed::{by_rules, hard_to_meet, large, small_files, too_many};
use inputs::cases::{self, AS_IT_IS, Form};
use inputs::columns::{self as made, Columns};
use inputs::random::Random;
use inputs::shapes;
use inputs::wide::wide;
use oracle::columns;

mod due;
mod fixed;
mod numbers;
mod same;

pub use same::{take, write};

/// One section, and one column file, at random for so many of the count.
const SHARE: usize = 4;

/// How many more are looked at for conditions that were met too seldom, for each one of the count.
const TRIES: usize = 20;

const WRITTEN: &str = "written";
const TAKEN: &str = "taken back";

/// What is written, taken back and refused. A rebuilt section is never cut before its payload, and has no bytes left over: no 2, no 24.
const REACHABLE: [Outcome; 86] = [
    (0, WRITTEN),
    (0, "written, schema 2"),
    (0, "written by other rules"),
    (0, "written, a longer output"),
    (61, "writing, one short"),
    (61, "writing, no output"),
    (61, "writing, a lent table"),
    (69, "writing"),
    (70, "writing"),
    (1, WRITTEN),
    (2, WRITTEN),
    (3, WRITTEN),
    (4, WRITTEN),
    (5, WRITTEN),
    (6, WRITTEN),
    (7, WRITTEN),
    (8, WRITTEN),
    (9, WRITTEN),
    (10, WRITTEN),
    (11, WRITTEN),
    (12, WRITTEN),
    (13, WRITTEN),
    (16, WRITTEN),
    (17, WRITTEN),
    (18, WRITTEN),
    (19, WRITTEN),
    (20, WRITTEN),
    (21, WRITTEN),
    (22, WRITTEN),
    (23, WRITTEN),
    (24, WRITTEN),
    (25, WRITTEN),
    (26, WRITTEN),
    (27, WRITTEN),
    (28, WRITTEN),
    (29, WRITTEN),
    (0, TAKEN),
    (0, "taken back, schema 2"),
    (0, "taken back by other rules"),
    (0, "taken back, a longer output"),
    (61, "taking back, one short"),
    (61, "taking back, no output"),
    (61, "taking back, one short, before the decoder"),
    (61, "taking back, a lent table"),
    (69, "taking back"),
    (70, "taking back"),
    (75, "more groups than needed"),
    (75, "too large for 2 bytes"),
    (75, "too large for 4 bytes"),
    (75, "too large for 8 bytes"),
    (76, "a number cut"),
    (76, "bytes cut"),
    (76, "a text cut"),
    (76, "left over"),
    (76, "a count of 2^32 - 1 without columns"),
    (4, "a longer payload length"),
    (5, "a shorter payload length"),
    (13, "a shorter payload length"),
    (10, "schema 3"),
    (1, TAKEN),
    (3, TAKEN),
    (4, TAKEN),
    (5, TAKEN),
    (6, TAKEN),
    (7, TAKEN),
    (8, TAKEN),
    (9, TAKEN),
    (10, TAKEN),
    (11, TAKEN),
    (12, TAKEN),
    (13, TAKEN),
    (16, TAKEN),
    (17, TAKEN),
    (18, TAKEN),
    (19, TAKEN),
    (20, TAKEN),
    (21, TAKEN),
    (22, TAKEN),
    (23, TAKEN),
    (25, TAKEN),
    (26, TAKEN),
    (27, TAKEN),
    (28, TAKEN),
    (29, TAKEN),
    (61, "writing, a lent table and the output"),
    (61, "taking back, the output and a lent table"),
];

pub fn run(r: &mut Random, count: usize) -> Tally {
    let mut tally = Tally::alone("columns", &REACHABLE);
    small_files(&mut tally, r);
    numbers::each(&mut tally, r);
    large(&mut tally, r);
    for _ in 0..count / SHARE {
        let form = schema(r);
        let case = match r.below(400) {
            0 => cases::large_section_in(r, form),
            _ => cases::section_in(r, form),
        };
        write(&mut tally, By::FOUR, &case);
        let file = match r.below(400) {
            0 => made::many(r),
            _ => made::small(r),
        };
        take(&mut tally, By::FOUR, &file);
        if tally.inputs().is_multiple_of(4) {
            by_rules(&mut tally, r);
            hard_to_meet(&mut tally, r);
        }
    }
    seldom(&mut tally, r, count);
    tally
}

/// More of the conditions that were met too seldom.
fn seldom(tally: &mut Tally, r: &mut Random, count: usize) {
    for _ in 0..TRIES * count {
        let lacking = tally.too_few();
        if lacking.is_empty() {
            return;
        }
        let lacks = |wanted: fn(&Outcome) -> bool| lacking.iter().any(|(of, _)| wanted(of));
        if lacks(|(number, why)| matches!(number, 69 | 70) || why.ends_with("other rules")) {
            by_rules(tally, r);
        }
        if lacks(|(_, why)| why.contains("payload length") || *why == "schema 3") {
            hard_to_meet(tally, r);
        }
        if lacks(|of| *of == (27, TAKEN)) {
            let proofs = r.within(257, 300) as u32;
            take(
                tally,
                By::FOUR,
                &Columns::of(&shapes::chain(r, proofs)).bytes(),
            );
        }
        if lacks(|of| *of == (12, TAKEN)) {
            too_many(tally, r);
        }
        at_random(tally, r);
        tally.progress();
    }
}

/// Either schema.
fn schema(r: &mut Random) -> Form {
    r.pick(&[AS_IT_IS, wide])
}

/// A section and a file, where they meet a condition that was met too seldom.
fn at_random(tally: &mut Tally, r: &mut Random) {
    let form = schema(r);
    let case = cases::section_in(r, form);
    let answer = expected(By::FOUR, &case.file, case.cursor);
    let is_lacking = match number(&answer) {
        0 => tally.lacks((0, WRITTEN)) || tally.lacks((0, "written, schema 2")),
        number => tally.lacks((number, WRITTEN)),
    };
    if is_lacking {
        write(tally, By::FOUR, &case);
    }
    let file = made::small(r);
    let outcome = match columns::take(&file) {
        Ok(section) => (number(&expected(By::FOUR, &section, 0)), TAKEN),
        Err((number, _, why)) => (number, why),
    };
    if tally.lacks(outcome) {
        take(tally, By::FOUR, &file);
    }
}

fn number<T>(answer: &Answer<T>) -> u8 {
    answer.as_ref().map_or_else(|refusal| refusal.number, |_| 0)
}

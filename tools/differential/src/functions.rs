//! Files of functions: every cut and byte change of a small one, faults one and two at once, 1,023 to 1,025 functions, cursors anywhere.

use crate::function_compare;
use crate::tally::{Outcome, Tally};
use inputs::block::{REVISIONS, each_form};
use inputs::cases::{self, FileCase};
use inputs::function_conditions::{REACHABLE, condition};
use inputs::functions::Function;
use inputs::random::Random;
use inputs::text::Text;

/// How many more inputs are looked at for conditions that were met too seldom, for each one of the count.
const TRIES: usize = 20;

/// One file for so many of the count.
const SHARE: usize = 5;

/// One file in so many has some thousand functions.
const MANY: usize = 100;

pub fn run(r: &mut Random, count: usize) -> Tally {
    let mut tally = Tally::of("functions", &REACHABLE);
    for revision in REVISIONS {
        let file = three(r, revision);
        cuts(&mut tally, &file, revision);
        byte_changes(&mut tally, &file, revision);
    }
    for _ in 0..count / SHARE {
        let case = if r.one_in(MANY) {
            cases::many_functions(r)
        } else {
            cases::functions(r)
        };
        function_compare::compare(&mut tally, &case);
    }
    seldom(&mut tally, r, count);
    tally
}

/// More of the conditions that were met too seldom.
fn seldom(tally: &mut Tally, r: &mut Random, count: usize) {
    for turn in 0..TRIES * count {
        if tally.too_few().is_empty() {
            return;
        }
        let case = match turn % 16 {
            0 if tally.lacks((65, "")) => cases::many_functions(r),
            _ => cases::functions(r),
        };
        if tally.lacks(outcome(&case)) {
            function_compare::compare(tally, &case);
        }
        tally.progress();
    }
}

fn outcome(case: &FileCase) -> Outcome {
    match oracle::functions::functions(&case.file, case.cursor, case.revision) {
        Ok(_) => (0, ""),
        Err(refusal) => (refusal.number, condition(&case.file, case.cursor, &refusal)),
    }
}

/// Two bytes before the cursor, and three functions: the first block has each form, the others have less.
fn three(r: &mut Random, revision: u16) -> Vec<u8> {
    let mut file = vec![7, 7];
    for (name, more) in [("f", 0), ("\u{e9}\n", 1), ("hhh", 2)] {
        let mut block = each_form(r, revision);
        if more > 0 {
            block.debug = None;
            block.strings.truncate(2 - more);
        }
        let name = Text::new(name.as_bytes());
        Function {
            name,
            size: None,
            block,
        }
        .write(&mut file);
    }
    file
}

fn compare(tally: &mut Tally, file: &[u8], cursor: usize, revision: u16) {
    let case = FileCase {
        file: file.to_vec(),
        cursor,
        revision,
    };
    function_compare::compare(tally, &case);
}

/// Every end, and every cursor up to past the end.
fn cuts(tally: &mut Tally, file: &[u8], revision: u16) {
    for end in 0..=file.len() {
        compare(tally, &file[..end], 2, revision);
    }
    for cursor in (0..file.len() + 3).chain([1 << 32, 1 << 63, usize::MAX - 1, usize::MAX]) {
        compare(tally, file, cursor, revision);
    }
}

/// Every byte of the heads and of the last block with every other value.
fn byte_changes(tally: &mut Tally, file: &[u8], revision: u16) {
    let mut changed = file.to_vec();
    for at in 2..file.len() {
        let step = if revision == 22 { 1 } else { 17 };
        for change in (1..=255).step_by(step) {
            changed[at] = file[at] ^ change;
            compare(tally, &changed, 2, revision);
        }
        changed[at] = file[at];
    }
}

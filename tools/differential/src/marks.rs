//! The marks of a section's proofs, which the Rust does not have: held to plain lines over the Rust's records (tools/oracle/plain/marks.rs).
//! Each section is lent a table of bytes that is exact, longer, one short and empty, with the other tables long enough; what the call answers
//! and leaves in all four is compared. Those of schema 2 are left to wide.rs.

use crate::by::By;
use crate::section_binding::{rust_told, told};
use crate::section_compare::{Rooms, call_marked, expected, is_wide, rooms, what};
use crate::tally::{Outcome, Tally};
use answers::Answer;
use answers::refusal::{Kind, Refusal};
use answers::section::Section;
use falgnust::evr0;
use inputs::cases::{self, SectionCase};
use inputs::marked;
use inputs::random::Random;
use inputs::section_conditions::counts_passed;
use inputs::shapes;
use oracle::marks;
use oracle::records::DecodedEvr0;

/// One section for so many of the count.
const SHARE: usize = 5;

/// How many more sections are looked at for conditions that were met too seldom, for each one of the count.
const TRIES: usize = 20;

/// Sections of at most so many proofs have every walk made.
const FEW: usize = 14;

/// What a table of marks holds, what it is lent as, and each refusal, after which it is zeros.
const REACHABLE: [Outcome; 35] = [
    (0, "no proof"),
    (0, "marks 1 alone"),
    (0, "marks 2 alone"),
    (0, "marks 1 and 2"),
    (0, "marks 1, 2 and 3"),
    (0, "a longer table"),
    (61, "one short, marks alone"),
    (61, "no entry, marks alone"),
    (1, ZEROS),
    (2, ZEROS),
    (3, ZEROS),
    (4, ZEROS),
    (5, ZEROS),
    (6, ZEROS),
    (7, ZEROS),
    (8, ZEROS),
    (9, ZEROS),
    (10, ZEROS),
    (11, ZEROS),
    (12, ZEROS),
    (13, ZEROS),
    (16, ZEROS),
    (17, ZEROS),
    (18, ZEROS),
    (19, ZEROS),
    (20, ZEROS),
    (21, ZEROS),
    (22, ZEROS),
    (23, ZEROS),
    (24, ZEROS),
    (25, ZEROS),
    (26, ZEROS),
    (27, ZEROS),
    (28, ZEROS),
    (29, ZEROS),
];

const ZEROS: &str = "zeros";

pub fn run(r: &mut Random, count: usize) -> Tally {
    let mut tally = Tally::alone("marks", &REACHABLE);
    large(&mut tally, r);
    for _ in 0..count / SHARE {
        let case = match r.below(400) {
            0 => cases::large_section(r),
            _ => any(r),
        };
        ask(&mut tally, &case);
    }
    for _ in 0..TRIES * count {
        if tally.too_few().is_empty() {
            break;
        }
        let case = any(r);
        if is_wide(&case) {
            continue;
        }
        let rust = oracle::section::section(&case.file, case.cursor);
        let outcome = match &rust {
            Ok((_, decoded)) => (0, kinds(&marks::marks(decoded))),
            Err(refusal) => (refusal.number, ZEROS),
        };
        if tally.lacks(outcome) {
            compare(&mut tally, &case, By::FOUR, &rust);
        }
        tally.progress();
    }
    tally
}

/// A section of one ruling, or any in a file, valid or damaged.
fn any(r: &mut Random) -> SectionCase {
    match r.one_in(2) {
        true => at_start(marked::ruling(r).bytes()),
        false => cases::section(r),
    }
}

/// Joins upon joins up to the greatest depth, and the largest tables.
fn large(tally: &mut Tally, r: &mut Random) {
    for sides in [[true; 2], [false; 2], [true, false], [false, true]] {
        for layers in [1, 2, 200, 255, 256] {
            let section = marked::joins_upon_joins(r, layers, sides);
            ask(tally, &at_start(section.bytes()));
        }
    }
    for section in [
        shapes::chain(r, 256),
        shapes::layers(r, 250, 160),
        shapes::witnesses_and_ops(r, 40_000),
        shapes::ops_on_one(r, 65_536),
    ] {
        ask(tally, &at_start(section.bytes()));
    }
}

fn at_start(file: Vec<u8>) -> SectionCase {
    SectionCase { file, cursor: 0 }
}

fn ask(tally: &mut Tally, case: &SectionCase) {
    if !is_wide(case) {
        let rust = oracle::section::section(&case.file, case.cursor);
        compare(tally, case, By::FOUR, &rust);
    }
}

/// By the four.
pub fn compare(
    tally: &mut Tally,
    case: &SectionCase,
    by: By,
    rust: &Answer<(Section, DecodedEvr0)>,
) {
    let marks = match rust {
        Ok((_, decoded)) => marks_of(tally, case, decoded),
        Err(_) => vec![],
    };
    through_crate(tally, case, by, &marks);
    let rust = rust.as_ref().map(|(s, _)| s.clone()).map_err(|r| *r);
    let rooms = rooms(case);
    let outcome = match &rust {
        Ok(_) => (0, kinds(&marks)),
        Err(refusal) => (refusal.number, ZEROS),
    };
    let Some((counts, offset)) = counts_passed(&case.file, case.cursor, &rust) else {
        // refused before any table is looked at, however short it is
        for room in [rooms[2], 0] {
            same(tally, case, &rust, rooms, &marks, room, outcome);
        }
        return;
    };
    let proofs = counts[1] as usize;
    let short = Refusal {
        kind: Kind::Added,
        number: 61,
        offset,
    };
    let longer = match outcome {
        (0, _) => (0, "a longer table"),
        refused => refused,
    };
    let mut lent = vec![
        (proofs, outcome),
        (proofs + 1 + case.file.len() % 3, longer),
    ];
    if proofs > 0 {
        lent.push((proofs - 1, (61, "one short, marks alone")));
        lent.push((0, (61, "no entry, marks alone")));
    }
    for (room, outcome) in lent {
        if marks::is_short(room, proofs) {
            same(tally, case, &Err(short), rooms, &[], room, outcome);
        } else {
            same(tally, case, &rust, rooms, &marks, room, outcome);
        }
    }
}

/// The marks; of a small section also by every walk.
fn marks_of(tally: &mut Tally, case: &SectionCase, decoded: &DecodedEvr0) -> Vec<u8> {
    let found = marks::marks(decoded);
    if decoded.proofs.len() <= FEW {
        tally.same(&marks::marks_by_walks(decoded), &found, || {
            format!("by walks, {}", what(case))
        });
    }
    found
}

/// The answer, the cursor, and all four tables, of which that of marks has this room.
fn same(
    tally: &mut Tally,
    case: &SectionCase,
    answer: &Answer<Section>,
    rooms: Rooms,
    marks: &[u8],
    room: usize,
    outcome: Outcome,
) {
    tally.input(outcome);
    let expected = (expected(case, answer, rooms), marks::lent(marks, room));
    tally.same(&expected, &call_marked(case, rooms, room), || {
        format!("room {rooms:?}, marks {room}, {}", what(case))
    });
}

/// What the crate answers: the marks, or the Rust's error.
fn through_crate(tally: &mut Tally, case: &SectionCase, by: By, marks: &[u8]) {
    let rust = by.rust(&case.file, &mut case.cursor.clone());
    let rust = rust_told(rust.map(|_| marks.to_vec()));
    let port = told(evr0::marks(&case.file, case.cursor));
    tally.same(&rust, &port, || format!("the binding, {}", what(case)));
}

/// Which marks there are.
fn kinds(marks: &[u8]) -> &'static str {
    let has = |mark: u8| marks.contains(&mark);
    match (has(1), has(2), has(3)) {
        (false, false, false) => "no proof",
        (true, false, false) => "marks 1 alone",
        (false, true, false) => "marks 2 alone",
        (true, true, false) => "marks 1 and 2",
        _ => "marks 1, 2 and 3",
    }
}

//! One section on both sides: the result, the cursor, and every entry of the three lent tables that the Rust has the entries of. It goes
//! through both decoders of the port; the marks that one of them fills are left out here, and compared in marks.rs.

use crate::block_compare::{OLD, lent};
use crate::by::By;
use crate::section_binding;
use crate::section_numbers;
use crate::tally::{Outcome, Tally, hex};
use answers::Answer;
use answers::refusal::{Kind, Refusal};
use answers::section::{Head, Section};
use falgnust::calls::SectionTables;
use inputs::cases::SectionCase;
use inputs::section_conditions::{condition, counts};
use oracle::records::DecodedEvr0;
use oracle::section::schema;
use port::section::answer;

/// Room for propositions, proofs and depths.
pub type Rooms = [usize; 3];

/// Of every schema but 2 with the Rust. Those of schema 2 are left to wide.rs.
pub fn compare(tally: &mut Tally, case: &SectionCase) {
    if !is_wide(case) {
        compare_by(tally, case, By::FOUR);
    }
}

/// Whether the Rust is not asked.
pub fn is_wide(case: &SectionCase) -> bool {
    schema(&case.file, case.cursor) == Some(2)
}

/// By these rules on both sides.
pub fn compare_by(tally: &mut Tally, case: &SectionCase, by: By) {
    let rust = by.expected(&case.file, case.cursor);
    let of = match &rust {
        Ok(_) => (0, ""),
        Err(refusal) => (refusal.number, condition(&case.file, case.cursor, refusal)),
    };
    compare_as(tally, case, by, rust, of);
}

/// The same, with the Rust's answer and what it is counted as.
pub fn compare_as(
    tally: &mut Tally,
    case: &SectionCase,
    by: By,
    rust: Answer<(Section, DecodedEvr0)>,
    of: Outcome,
) {
    tally.input(of);
    section_binding::compare(tally, case, by);
    if tally.inputs().is_multiple_of(7) {
        section_numbers::compare_by(tally, case, &rust, by);
    }
    let rust = rust.map(|(section, _)| section);
    let rooms = rooms(case);
    both(tally, case, by, rooms, &expected(case, &rust, rooms));
    if !matches!(&rust, Err(refusal) if refusal.number < 16) {
        short_tables(tally, case, by);
    }
}

/// Room enough: a proposition takes 15 bytes at least and a proof 35, and larger counts are refused before 61 is asked.
pub fn rooms(case: &SectionCase) -> Rooms {
    let length = case.file.len();
    let proofs = length / 35 + 1;
    [length / 15 + 1, proofs, proofs + length % 3]
}

pub type Called = (Answer<Head>, usize, [Vec<u64>; 3]);

/// Both decoders of the port, with marks as many as depths.
fn both(tally: &mut Tally, case: &SectionCase, by: By, rooms: Rooms, expected: &Called) {
    tally.same(expected, &call(case, by, rooms), || {
        format!("unmarked, {}room {rooms:?}, {}", by.told(), what(case))
    });
    let (marked, _) = call_marked_by(case, by, rooms, rooms[2]);
    tally.same(expected, &marked, || {
        format!("{}room {rooms:?}, {}", by.told(), what(case))
    });
}

/// The port's answer without marks, the cursor and the tables after it.
fn call(case: &SectionCase, by: By, rooms: Rooms) -> Called {
    let mut tables = rooms.map(|room| vec![OLD; room]);
    let section = by.unmarked(&case.file, case.cursor, section_tables(&mut tables));
    let (answer, cursor) = answer(section);
    (answer, cursor, tables)
}

fn section_tables([propositions, proofs, depths]: &mut [Vec<u64>; 3]) -> SectionTables<'_> {
    SectionTables {
        propositions,
        proofs,
        depths,
    }
}

/// The port's answer, the cursor, the tables after it, and the marks in so many bytes.
pub fn call_marked(case: &SectionCase, rooms: Rooms, marks: usize) -> (Called, Vec<u8>) {
    call_marked_by(case, By::FOUR, rooms, marks)
}

/// The same by these rules.
pub fn call_marked_by(case: &SectionCase, by: By, rooms: Rooms, marks: usize) -> (Called, Vec<u8>) {
    let mut tables = rooms.map(|room| vec![OLD; room]);
    let mut marks = vec![OLD_MARK; marks];
    let lent = section_tables(&mut tables);
    let section = by.section(&case.file, case.cursor, lent, &mut marks);
    let (answer, cursor) = answer(section);
    ((answer, cursor, tables), marks)
}

/// What a table of marks holds before a call.
pub const OLD_MARK: u8 = 0xAA;

pub fn expected(case: &SectionCase, rust: &Answer<Section>, rooms: Rooms) -> Called {
    match rust {
        Ok(s) => {
            let t = &s.tables;
            let tables = [&t.propositions, &t.proofs, &t.depths];
            (
                Ok(s.head),
                s.cursor,
                std::array::from_fn(|i| lent(tables[i], rooms[i])),
            )
        }
        Err(refusal) => (
            Err(*refusal),
            case.cursor,
            rooms.map(|room| lent(&[], room)),
        ),
    }
}

pub fn what(case: &SectionCase) -> String {
    format!("cursor {}, {}", case.cursor, hex(&case.file))
}

const SHORT: [&str; 3] = [
    "propositions, no Rust side",
    "proofs, no Rust side",
    "depths, no Rust side",
];

/// 61, which the Rust does not have: one table an entry too short, the others just long enough, for a section that passes the checks of
/// its counts.
fn short_tables(tally: &mut Tally, case: &SectionCase, by: By) {
    let (counts, offset) = counts(&case.file, case.cursor);
    let needed = [counts[0], counts[1], counts[1]].map(|count| count as usize);
    let refusal = Refusal {
        kind: Kind::Added,
        number: 61,
        offset,
    };
    for table in 0..3 {
        if needed[table] == 0 {
            continue;
        }
        let mut rooms = needed;
        rooms[table] -= 1;
        tally.input((61, SHORT[table]));
        let due = expected(case, &Err(refusal), rooms);
        both(tally, case, by, rooms, &due);
    }
}

//! What a call by column has to answer and to leave, and what the port does.

use crate::block_compare::{OLD, lent};
use crate::by::By;
use crate::section_compare::Rooms;
use answers::Answer;
use answers::refusal::{Kind, Refusal};
use answers::section::Section;
use falgnust::calls::SectionTables;
use falgnust::raw;
use inputs::cases::SectionCase;
use inputs::section_conditions::counts_passed;
use oracle::columns;
use oracle::records::DecodedEvr0;

/// What the Rust answers, or the model of schema 2.
pub fn expected(by: By, file: &[u8], cursor: usize) -> Answer<(Section, DecodedEvr0)> {
    by.of(file, cursor).expected(file, cursor)
}

/// What a call answers and leaves: the length or the refusal, the lent tables, the output.
pub type Called = (Answer<usize>, [Vec<u64>; 3], Vec<u8>);

pub fn refused(number: u8, offset: usize) -> Refusal {
    Refusal {
        kind: Kind::Added,
        number,
        offset,
    }
}

/// The decoder's answer with lent tables of these lengths.
fn decoded(by: By, file: &[u8], cursor: usize, rooms: Rooms) -> Answer<Section> {
    let answer = expected(by, file, cursor).map(|(section, _)| section);
    if let Some((counts, offset)) = counts_passed(file, cursor, &answer) {
        let needed = [counts[0], counts[1], counts[1]];
        if (0..3).any(|table| rooms[table] < needed[table] as usize) {
            return Err(refused(61, offset));
        }
    }
    answer
}

/// All tables and the output are zeros after a refusal.
pub fn due(answer: Answer<(&Section, &[u8])>, rooms: Rooms, room: usize) -> Called {
    match answer {
        Ok((section, written)) => {
            let t = &section.tables;
            let tables = [&t.propositions, &t.proofs, &t.depths];
            (
                Ok(written.len()),
                std::array::from_fn(|i| lent(tables[i], rooms[i])),
                columns::lent(written, room),
            )
        }
        Err(refusal) => (
            Err(refusal),
            rooms.map(|room| lent(&[], room)),
            columns::lent(&[], room),
        ),
    }
}

fn short(room: usize, length: usize) -> Option<Refusal> {
    columns::is_short(room, length).then(|| refused(61, 0))
}

pub fn due_written(by: By, case: &SectionCase, rooms: Rooms, room: usize) -> Called {
    let section = expected(by, &case.file, case.cursor);
    let written = match &section {
        Ok((section, _)) => columns::write(&case.file[case.cursor..section.cursor]),
        Err(_) => vec![],
    };
    let answer = decoded(by, &case.file, case.cursor, rooms);
    let decoder = answer.as_ref().err().copied();
    match columns::first_of_writing(decoder, short(room, written.len())) {
        None => due(
            answer.as_ref().map(|s| (s, &written[..])).map_err(|r| *r),
            rooms,
            room,
        ),
        Some(refusal) => due(Err(refusal), rooms, room),
    }
}

pub fn due_taken(
    by: By,
    taken: &Result<Vec<u8>, columns::Wrong>,
    rooms: Rooms,
    room: usize,
) -> Called {
    let section = taken.as_deref().unwrap_or_default();
    let wrong = taken.as_ref().err();
    let columns = wrong.map(|(number, offset, _)| refused(*number, *offset));
    let answer = decoded(by, section, 0, rooms);
    let decoder = answer.as_ref().err().copied();
    match columns::first_of_taking(columns, short(room, section.len()), decoder) {
        None => due(
            answer.as_ref().map(|s| (s, section)).map_err(|r| *r),
            rooms,
            room,
        ),
        Some(refusal) => due(Err(refusal), rooms, room),
    }
}

/// What an output holds before a call.
const OLD_BYTE: u8 = 0xA5;

pub fn call(
    rooms: Rooms,
    room: usize,
    call: impl FnOnce(SectionTables, &mut [u8]) -> raw::Columns,
) -> Called {
    let mut tables = rooms.map(|room| vec![OLD; room]);
    let mut output = vec![OLD_BYTE; room];
    let [propositions, proofs, depths] = &mut tables;
    let lent = SectionTables {
        propositions,
        proofs,
        depths,
    };
    let answer = call(lent, &mut output);
    let answer = match answer.accepted {
        true => {
            assert_eq!(answer.refusal, raw::Refusal::default(), "zeros");
            Ok(answer.length)
        }
        false => {
            assert_eq!(answer.length, 0, "zero where refused");
            Err(port::refusal::answer(answer.refusal))
        }
    };
    (answer, tables, output)
}

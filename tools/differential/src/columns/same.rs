//! A section that is written by column and a file that is taken back, on both sides: with outputs and lent tables of several lengths, and through the
//! crate.

use super::due::{call, due_taken, due_written, expected};
use super::{TAKEN, WRITTEN};
use crate::by::By;
use crate::section_compare::Rooms;
use crate::tally::{Outcome, Tally, hex};
use answers::Answer;
use inputs::cases::SectionCase;
use inputs::section_conditions::counts_passed;
use oracle::columns;

// ---- Writing

/// A section with outputs that are exact, longer, one short and none, and with a lent table that is short; and through the crate.
pub fn write(tally: &mut Tally, by: By, case: &SectionCase) {
    let rooms = fitted(case.file.len());
    let answer = expected(by, &case.file, case.cursor);
    let (section, of) = match &answer {
        Ok((section, _)) => {
            let file = &case.file[case.cursor..section.cursor];
            let of = match (by.is_four(), &file[8..10]) {
                (false, _) => (0, "written by other rules"),
                (true, [2, 0]) => (0, "written, schema 2"),
                _ => (0, WRITTEN),
            };
            (Some(file), of)
        }
        Err(refusal) => (None, (refusal.number, WRITTEN)),
    };
    through_crate(tally, by, case, section);
    let Some(section) = section else {
        for room in [case.file.len() % 7, 0] {
            same_written(tally, by, case, rooms, room, of);
        }
        if let Some((counts, _)) = counts_passed(&case.file, case.cursor, &answer) {
            let of = (61, "writing, a lent table");
            same_written(tally, by, case, one_short(counts), 0, of);
        }
        return;
    };
    let written = columns::write(section);
    round_trip(tally, section, &written);
    let length = written.len();
    let exact = [
        (length, of),
        (
            length + 1 + case.file.len() % 5,
            (0, "written, a longer output"),
        ),
        (length - 1, (61, "writing, one short")),
        (0, (61, "writing, no output")),
    ];
    for (room, of) in exact {
        same_written(tally, by, case, rooms, room, of);
    }
    let (counts, _) = counts_passed(&case.file, case.cursor, &answer).expect("counts");
    if counts[0] > 0 {
        let short = one_short(counts);
        let of = (61, "writing, a lent table");
        same_written(tally, by, case, short, length, of);
        let of = (61, "writing, a lent table and the output");
        same_written(tally, by, case, short, length - 1, of);
    }
}

/// Tables in which one has an entry less than it needs, where it needs any.
fn one_short(counts: [u32; 4]) -> Rooms {
    let mut rooms = [counts[0], counts[1], counts[1]].map(|count| count as usize);
    let table = (counts[1] % 3) as usize;
    let table = if rooms[table] > 0 { table } else { 0 };
    rooms[table] = rooms[table].saturating_sub(1);
    rooms
}

/// Tables that are long enough for every section in so many bytes.
pub fn fitted(length: usize) -> Rooms {
    [length / 15 + 1, length / 35 + 1, length / 35 + 1]
}

/// The plain lines take back what they write, and it is never more than a quarter longer.
fn round_trip(tally: &mut Tally, section: &[u8], written: &[u8]) {
    tally.same(&Ok(section.to_vec()), &columns::take(written), || {
        format!("the plain lines' round trip, {}", hex(section))
    });
    let longest = section.len() + section.len() / 4;
    tally.same(&true, &(written.len() <= longest), || {
        format!("a quarter more, {}", hex(section))
    });
}

fn same_written(
    tally: &mut Tally,
    by: By,
    case: &SectionCase,
    rooms: Rooms,
    room: usize,
    of: Outcome,
) {
    tally.input(of);
    let port = call(rooms, room, |lent, output| {
        by.write_columns(&case.file, case.cursor, lent, output)
    });
    tally.same(&due_written(by, case, rooms, room), &port, || {
        let (rules, cursor) = (by.told(), case.cursor);
        format!(
            "writing, {rules}room {rooms:?}, output {room}, cursor {cursor}, {}",
            hex(&case.file)
        )
    });
}

/// The crate lends what is needed: the columns, or the Rust's error. What it wrote it takes back.
fn through_crate(tally: &mut Tally, by: By, case: &SectionCase, section: Option<&[u8]>) {
    let due = match section {
        Some(section) => Ok(columns::write(section)),
        None => {
            let refusal = expected(by, &case.file, case.cursor)
                .err()
                .expect("refused");
            Err((Some(refusal.number), refusal.offset))
        }
    };
    let port = by.crate_write_columns(&case.file, case.cursor);
    let port = port.map_err(|error| (error.number(), error.offset));
    tally.same(&due, &port, || {
        let (rules, cursor) = (by.told(), case.cursor);
        format!(
            "the binding, writing, {rules}cursor {cursor}, {}",
            hex(&case.file)
        )
    });
}

// ---- Taking back

/// A file with outputs that are exact, longer, one short and none, and with a lent table that is short; and through the crate.
pub fn take(tally: &mut Tally, by: By, file: &[u8]) {
    let taken = columns::take(file);
    crate_takes(tally, by, file, &taken);
    let section = match &taken {
        Ok(section) => section,
        Err((number, _, why)) => {
            for room in [file.len() % 7, 0] {
                same_taken(tally, by, file, &taken, fitted(0), room, (*number, why));
            }
            return;
        }
    };
    let length = section.len();
    let rooms = fitted(length);
    let answer = expected(by, section, 0);
    let of = outcome_of_taking(by, section, &answer);
    if answer.is_ok() {
        tally.same(&file.to_vec(), &columns::write(section), || {
            format!("the file that its section writes, {}", hex(file))
        });
    }
    let longer = match of {
        (0, _) => (0, "taken back, a longer output"),
        refused => refused,
    };
    let short = match of {
        (0, _) => (61, "taking back, one short"),
        _ => (61, "taking back, one short, before the decoder"),
    };
    let exact = [
        (length, of),
        (length + 1 + file.len() % 5, longer),
        (length - 1, short),
        (0, (61, "taking back, no output")),
    ];
    for (room, of) in exact {
        same_taken(tally, by, file, &taken, rooms, room, of);
    }
    if let Some((counts, _)) = counts_passed(section, 0, &answer)
        && counts[0] > 0
    {
        let rooms = one_short(counts);
        let of = (61, "taking back, a lent table");
        same_taken(tally, by, file, &taken, rooms, length, of);
        let of = (61, "taking back, the output and a lent table");
        same_taken(tally, by, file, &taken, rooms, length - 1, of);
    }
}

fn outcome_of_taking<T>(by: By, section: &[u8], answer: &Answer<T>) -> Outcome {
    match answer {
        Ok(_) if !by.is_four() => (0, "taken back by other rules"),
        Ok(_) if section[8..10] == [2, 0] => (0, "taken back, schema 2"),
        Ok(_) => (0, TAKEN),
        Err(refusal) => (refusal.number, TAKEN),
    }
}

pub fn same_taken(
    tally: &mut Tally,
    by: By,
    file: &[u8],
    taken: &Result<Vec<u8>, columns::Wrong>,
    rooms: Rooms,
    room: usize,
    of: Outcome,
) {
    tally.input(of);
    let port = call(rooms, room, |lent, output| {
        by.take_columns(file, lent, output)
    });
    tally.same(&due_taken(by, taken, rooms, room), &port, || {
        let rules = by.told();
        format!(
            "taking back, {rules}room {rooms:?}, output {room}, {}",
            hex(file)
        )
    });
}

fn crate_takes(tally: &mut Tally, by: By, file: &[u8], taken: &Result<Vec<u8>, columns::Wrong>) {
    let due = match taken {
        Ok(section) => match expected(by, section, 0) {
            Ok(_) => Ok(section.clone()),
            Err(refusal) => Err((Some(refusal.number), refusal.offset)),
        },
        Err((number, offset, _)) => Err((Some(*number), *offset)),
    };
    let port = by.crate_take_columns(file);
    let port = port.map_err(|error| (error.number(), error.offset()));
    tally.same(&due, &port, || {
        format!("the binding, taking back, {}{}", by.told(), hex(file))
    });
}

/// With one output, which every answer fits into: for what is asked very often.
pub fn take_once(tally: &mut Tally, file: &[u8], room: usize) {
    let taken = columns::take(file);
    let of = match &taken {
        Ok(section) => {
            let answer = expected(By::FOUR, section, 0);
            outcome_of_taking(By::FOUR, section, &answer)
        }
        Err((number, _, why)) => (*number, *why),
    };
    same_taken(tally, By::FOUR, file, &taken, fitted(room), room, of);
}

//! One file on both sides: the result, every entry of the lent list and of the three lent tables, and every head.

use crate::block_compare::{
    MOST, OLD, OLD_BYTE, OLD_SYMBOL, counts, lent, listed, places as block_places,
};
use crate::function_binding;
use crate::function_numbers;
use crate::tally::{Tally, hex};
use answers::Answer;
use answers::functions::{File, Function};
use answers::refusal::{Kind, Refusal};
use inputs::cases::FileCase;
use inputs::function_conditions::{SHORT, accepted, condition};
use port::block::DebugSymbol;
use port::functions::{Decoded, Lent, decode_functions, read_function};

/// The most functions of a file.
const FUNCTIONS: usize = 1024;

/// The lengths of the lent tables: functions, strings, symbols, paths, families.
pub type Rooms = [usize; 5];

pub fn compare(tally: &mut Tally, case: &FileCase) {
    let rust = oracle::functions::functions(&case.file, case.cursor, case.revision);
    tally.input(match &rust {
        Ok(file) => (0, accepted(file.functions.len())),
        Err(refusal) => (refusal.number, condition(&case.file, case.cursor, refusal)),
    });
    if let Some(functions) = case.file.get(case.cursor..) {
        let held = oracle::functions::held(functions, case.revision);
        tally.same(&held.unwrap_or(true), &true, || {
            format!("the loop by itself, {}", what(case))
        });
    }
    let rooms = rooms(case);
    with_rooms(tally, case, rooms, &rust);
    function_binding::compare(tally, case);
    if tally.inputs().is_multiple_of(8) {
        function_numbers::compare(tally, case, &rust, rooms);
    }
    if let Ok(file) = &rust {
        heads(tally, case, file);
        if tally.inputs().is_multiple_of(7) {
            short_tables(tally, case, file);
        }
    }
    if let Err(Refusal {
        number: 65, offset, ..
    }) = rust
    {
        up_to(tally, case, offset);
    }
}

/// Room enough: an entry for each function that the rest has room for, and one more; as for one block of this length, or the most.
pub fn rooms(case: &FileCase) -> Rooms {
    let rest = case.file.len().saturating_sub(case.cursor);
    let functions = (rest / 9 + 1).min(FUNCTIONS);
    let rooms = [
        functions,
        MOST[0] + rest % 3,
        rest / 10 + 3,
        rest / 7 + 3,
        rest + rest % 3,
    ];
    match call(case, rooms).answer {
        Err(Refusal { number: 61, .. }) => longest(functions),
        _ => rooms,
    }
}

/// Tables that no block is too large for.
fn longest(functions: usize) -> Rooms {
    [functions, MOST[0], MOST[1], MOST[2], MOST[3]]
}

/// An answer with the cursor, and after it all that was lent.
#[derive(Debug, PartialEq)]
struct Called {
    answer: Answer<Decoded>,
    cursor: usize,
    functions: Vec<u64>,
    strings: Vec<u64>,
    symbols: Vec<DebugSymbol>,
    paths: Vec<u64>,
    families: Vec<u8>,
}

fn call(case: &FileCase, rooms: Rooms) -> Called {
    let [mut functions, mut strings, mut paths] =
        [rooms[0], rooms[1], rooms[3]].map(|room| vec![OLD; room]);
    let (mut symbols, mut families) = (vec![OLD_SYMBOL; rooms[2]], vec![OLD_BYTE; rooms[4]]);
    let tables = Lent {
        functions: &mut functions,
        strings: &mut strings,
        symbols: &mut symbols,
        paths: &mut paths,
        families: &mut families,
    };
    let (answer, cursor) = decode_functions(&case.file, case.cursor, case.revision, tables);
    Called {
        answer,
        cursor,
        functions,
        strings,
        symbols,
        paths,
        families,
    }
}

fn with_rooms(tally: &mut Tally, case: &FileCase, rooms: Rooms, rust: &Answer<File>) {
    let expected = match rust {
        Ok(file) => answered(file, rooms),
        Err(refusal) => refused(case, *refusal, rooms),
    };
    tally.same(&expected, &call(case, rooms), || what(case));
}

/// The starts of all functions, and the tables of the last one's block.
fn answered(file: &File, rooms: Rooms) -> Called {
    let starts: Vec<u64> = file.functions.iter().map(|f| f.start as u64).collect();
    let last = file.functions.last();
    let block = last.map(|f| &f.block);
    Called {
        answer: Ok(Decoded {
            functions: starts.len(),
            last: last.map(|f| (f.head.code, f.block.layout)),
        }),
        cursor: file.cursor,
        functions: lent(&starts, rooms[0]),
        strings: lent(block.map_or(&[], |b| &b.string_starts), rooms[1]),
        symbols: listed(block.map_or(&[], |b| &b.symbols), rooms[2]),
        paths: lent(block.map_or(&[], |b| &b.path_starts), rooms[3]),
        families: lent(block.map_or(&[], |b| &b.families), rooms[4]),
    }
}

/// A refusal, the cursor that was brought, and zeros in every table.
fn refused(case: &FileCase, refusal: Refusal, rooms: Rooms) -> Called {
    Called {
        answer: Err(refusal),
        cursor: case.cursor,
        functions: lent(&[], rooms[0]),
        strings: lent(&[], rooms[1]),
        symbols: listed(&[], rooms[2]),
        paths: lent(&[], rooms[3]),
        families: lent(&[], rooms[4]),
    }
}

pub fn what(case: &FileCase) -> String {
    format!(
        "cursor {}, revision {}, {}",
        case.cursor,
        case.revision,
        hex(&case.file)
    )
}

/// Each head at its start, with its name's bytes.
fn heads(tally: &mut Tally, case: &FileCase, file: &File) {
    for function in &file.functions {
        let start = function.start;
        let port = read_function(&case.file, start);
        let port = port.map(|head| (head, case.file[head.name.start..head.name.next].to_vec()));
        let rust = Ok((function.head, function.name.as_bytes().to_vec()));
        tally.same(&rust, &port, || format!("head at {start}, {}", what(case)));
    }
}

/// 61, which the Rust does not have: one table too short for the first function, for one between or for the last.
fn short_tables(tally: &mut Tally, case: &FileCase, file: &File) {
    let count = file.functions.len();
    let mut places = vec![0, count / 2, count.saturating_sub(1)];
    places.dedup();
    for place in places.into_iter().filter(|place| *place < count) {
        for table in 0..5 {
            let mut rooms = longest(count);
            rooms[table] = match table {
                0 => place,
                _ => match counts(&file.functions[place].block.layout)[table - 1] {
                    0 => continue,
                    needed => needed - 1,
                },
            };
            let Some((number, refusal)) = short(file, rooms) else {
                panic!("no function is short of room")
            };
            let position = match number {
                0 => 0,
                _ if number + 1 == count => 2,
                _ => 1,
            };
            tally.input((61, SHORT[table][position]));
            tally.same(&refused(case, refusal, rooms), &call(case, rooms), || {
                format!("room {rooms:?}, {}", what(case))
            });
        }
    }
}

/// The first function that a table is too short for, and the refusal: for its own entry at its start, then for its block after the count.
fn short(file: &File, rooms: Rooms) -> Option<(usize, Refusal)> {
    let at = |(number, function): (usize, &Function)| {
        if number >= rooms[0] {
            return Some((number, added(function.start)));
        }
        let layout = &function.block.layout;
        let table = (0..4).find(|&table| counts(layout)[table] > rooms[1 + table])?;
        let offset = function.head.code + block_places(layout)[table];
        Some((number, added(offset)))
    };
    file.functions.iter().enumerate().find_map(at)
}

fn added(offset: usize) -> Refusal {
    Refusal {
        kind: Kind::Added,
        number: 61,
        offset,
    }
}

/// A file with a 1,025th function: with more entries than the most 65 stays, with fewer 61 comes before it.
fn up_to(tally: &mut Tally, case: &FileCase, offset: usize) {
    let before = oracle::functions::functions(&case.file[..offset], case.cursor, case.revision);
    let before = before.expect("the functions before the 1,025th");
    let limit = Refusal {
        kind: Kind::Limit,
        number: 65,
        offset,
    };
    for entries in [0, 1, 512, FUNCTIONS - 1, FUNCTIONS, FUNCTIONS + 1, 2000] {
        let rooms = [entries, MOST[0], MOST[1], 10, MOST[3]];
        let refusal = match before.functions.get(entries) {
            Some(function) => added(function.start),
            None => limit,
        };
        tally.input((refusal.number, "of a file of more than 1,024, by entries"));
        tally.same(&refused(case, refusal, rooms), &call(case, rooms), || {
            format!("entries {entries}, {}", what(case))
        });
    }
}

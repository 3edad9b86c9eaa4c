//! One block on both sides: the result, every entry of the lent list and of both lent tables, every record, and the words of all records.

use crate::block_binding;
use crate::block_numbers;
use crate::block_words;
use crate::tally::{Tally, hex};
use answers::Answer;
use answers::block::{Block, Event, Layout, Path, Symbol};
use answers::refusal::{Kind, Refusal};
use falgnust::calls::BlockTables;
use inputs::block_conditions::{accepted, condition, signatures};
use inputs::cases::BlockCase;
use port::block::{
    DebugSymbol, parse_string_table_debug_and_ownership, read_component, read_debug_symbol,
    read_path,
};
use port::text::read_string;

/// What a lent table holds before a call.
pub const OLD: u64 = 0xA5A5_A5A5_A5A5_A5A5;

/// What a lent list of symbols holds before a call.
pub const OLD_SYMBOL: DebugSymbol = DebugSymbol {
    pc: OLD as usize,
    line: OLD as u32,
    col: OLD as u16,
};

/// What a lent table of bytes holds before a call.
pub const OLD_BYTE: u8 = OLD as u8;

/// The most strings, symbols, paths and families that a block may have.
pub const MOST: Rooms = [256, 8192, 65_535, 4096];

/// The lengths of the lent tables, in that order.
pub type Rooms = [usize; 4];

pub fn compare(tally: &mut Tally, case: &BlockCase) {
    let rust = oracle::block::block(&case.code, case.base, case.revision);
    tally.input(match &rust {
        Ok(_) => (0, accepted(case.revision)),
        Err(refusal) => (refusal.number, condition(&case.code, case.base, refusal)),
    });
    for value in signatures(&case.code, case.base, case.revision, &rust) {
        tally.value(value);
    }
    let rooms = rooms(case);
    with_rooms(tally, case, rooms, &rust);
    block_words::compare(tally, case, &rust);
    block_binding::compare(tally, case);
    if tally.inputs().is_multiple_of(8) {
        block_numbers::compare(tally, case, &rust, rooms);
        block_binding::compare_long(tally, case);
    }
    if let Ok(block) = &rust {
        records(tally, case, block);
        short_tables(tally, case, &block.layout);
    }
}

/// Room enough, and for symbols and paths not much more than that: a symbol takes 10 bytes and a path 7 at least, so a larger count is
/// refused after all, unless its table is too short for the count.
pub fn rooms(case: &BlockCase) -> Rooms {
    let length = case.code.len();
    let rooms = [
        MOST[0] + length % 3,
        length / 10 + 3,
        length / 7 + 3,
        length + length % 3,
    ];
    match call(case, rooms).0 {
        Err(Refusal { number: 61, .. }) => MOST,
        _ => rooms,
    }
}

/// An answer, and after it the lent strings, symbols, paths and families.
type Called = (
    Answer<Layout>,
    Vec<u64>,
    Vec<DebugSymbol>,
    Vec<u64>,
    Vec<u8>,
);

/// The port's answer with so much room.
fn call(case: &BlockCase, rooms: Rooms) -> Called {
    let (mut strings, mut paths) = (vec![OLD; rooms[0]], vec![OLD; rooms[2]]);
    let (mut symbols, mut families) = (vec![OLD_SYMBOL; rooms[1]], vec![OLD_BYTE; rooms[3]]);
    let answer = parse_string_table_debug_and_ownership(
        case.base,
        &case.code,
        case.revision,
        &mut symbols,
        BlockTables {
            strings: &mut strings,
            paths: &mut paths,
            families: &mut families,
        },
    );
    (answer, strings, symbols, paths, families)
}

fn with_rooms(tally: &mut Tally, case: &BlockCase, rooms: Rooms, rust: &Answer<Block>) {
    let expected = match rust {
        Ok(b) => (
            Ok(b.layout),
            lent(&b.string_starts, rooms[0]),
            listed(&b.symbols, rooms[1]),
            lent(&b.path_starts, rooms[2]),
            lent(&b.families, rooms[3]),
        ),
        Err(refusal) => refused(*refusal, rooms),
    };
    tally.same(&expected, &call(case, rooms), || what(case));
}

/// A refusal, and zeros in every table.
fn refused(refusal: Refusal, rooms: Rooms) -> Called {
    (
        Err(refusal),
        lent(&[], rooms[0]),
        listed(&[], rooms[1]),
        lent(&[], rooms[2]),
        lent(&[], rooms[3]),
    )
}

/// Symbols, and zeros past them.
pub fn listed(symbols: &[Symbol], room: usize) -> Vec<DebugSymbol> {
    let mut list: Vec<DebugSymbol> = symbols
        .iter()
        .map(|s| DebugSymbol {
            pc: s.pc,
            line: s.line,
            col: s.column,
        })
        .collect();
    list.resize(room, DebugSymbol::default());
    list
}

/// Entries, and zeros past them.
pub fn lent<T: Copy + Default>(entries: &[T], room: usize) -> Vec<T> {
    let mut table = entries.to_vec();
    table.resize(room, T::default());
    table
}

pub fn what(case: &BlockCase) -> String {
    format!(
        "base {}, revision {}, {}",
        case.base,
        case.revision,
        hex(&case.code)
    )
}

fn records(tally: &mut Tally, case: &BlockCase, block: &Block) {
    let code = &case.code;
    for (text, &start) in block.strings.iter().zip(&block.string_starts) {
        let port = read_string(code, start as usize);
        let port = port.map(|s| (code[s.start..s.start + s.len].to_vec(), s.chars));
        let rust = Ok((text.as_bytes().to_vec(), text.chars().count()));
        tally.same(&rust, &port, || {
            format!("string at {start}, {}", what(case))
        });
    }
    let mut at = block.layout.symbols_start;
    for symbol in &block.symbols {
        let next: Answer<(Symbol, usize)> = Ok((*symbol, at + 10));
        tally.same(&next, &read_debug_symbol(code, at), || {
            format!("symbol at {at}, {}", what(case))
        });
        at += 10;
    }
    for (path, &start) in block.paths.iter().zip(&block.path_starts) {
        let rust = Ok(path.clone());
        tally.same(&rust, &path_at(case, start as usize), || {
            format!("path at {start}, {}", what(case))
        });
    }
}

/// A path with its components, read one after the other.
fn path_at(case: &BlockCase, start: usize) -> Answer<Path> {
    let head = read_path(&case.code, start, case.revision)?;
    let kind = match head.event {
        Event::Borrow(_) => 0,
        Event::Write(_) => 1,
    };
    let (mut components, mut at) = (Vec::new(), head.components_start);
    for _ in 0..head.count {
        let (component, next) = read_component(&case.code, at, case.revision, kind)?;
        components.push(component);
        at = next;
    }
    assert_eq!(at, head.next, "the components end where the path does");
    Ok(Path {
        event: head.event,
        root: head.root,
        components,
    })
}

const SHORT: [&str; 4] = [
    "strings, no Rust side",
    "symbols, no Rust side",
    "paths, no Rust side",
    "families, no Rust side",
];

/// 61, which the Rust does not have: one table an entry too short, the others just long enough.
fn short_tables(tally: &mut Tally, case: &BlockCase, layout: &Layout) {
    let counts = counts(layout);
    let places = places(layout);
    for table in 0..4 {
        if counts[table] == 0 {
            continue;
        }
        let mut rooms = counts;
        rooms[table] -= 1;
        let refusal = Refusal {
            kind: Kind::Added,
            number: 61,
            offset: case.base.saturating_add(places[table]),
        };
        tally.input((61, SHORT[table]));
        tally.same(&refused(refusal, rooms), &call(case, rooms), || {
            format!("room {rooms:?}, {}", what(case))
        });
    }
}

/// Strings, symbols, paths and families.
pub fn counts(layout: &Layout) -> Rooms {
    [
        layout.strings,
        layout.symbols,
        layout.paths,
        layout.families,
    ]
}

/// The place after each count of a block that has these records.
pub fn places(layout: &Layout) -> Rooms {
    let paths = layout.symbols_start + 10 * layout.symbols + 4 + 2;
    [2, layout.symbols_start, paths, layout.families_start]
}

//! Files of functions. The Rust copies names, strings, symbols and paths into vectors; the port writes the functions' starts and the last
//! one's tables to lent tables, whose lengths a row states.

use crate::blocks::few_families;
use crate::rows::{Plan, Row, calls, plan};
use answers::Answer;
use inputs::block::{Block, large, small_at};
use inputs::functions::Function;
use inputs::random::Random;
use inputs::text::Text;
use oracle::semcode_decode::{DecodeError, functions_from};
use port::block::DebugSymbol;
use port::functions::{Decoded, Lent, decode_functions};
use std::cell::RefCell;
use std::hint::black_box;

const REVISION: u16 = 22;

/// Room for functions, strings, symbols, paths and families.
type Rooms = [usize; 5];
const LONGEST: Rooms = [1024, 256, 8192, 65_535, 4096];

pub fn rows() -> Vec<Plan> {
    vec![
        of(
            "functions, 1,024 small, tables fitted",
            [1024, 4, 3, 5, 4],
            || many(1024),
        ),
        of("functions, 1,024 small, tables longest", LONGEST, || {
            many(1024)
        }),
        of(
            "functions, 1,024 small, refused in the last, tables fitted",
            [1024, 4, 3, 5, 4],
            || {
                let mut file = many(1023);
                let block = b"\x01\x00\x01\x00\xff";
                file.extend(b"\x01\x00f\x05\x00\x00\x00");
                file.extend(block);
                file
            },
        ),
        of(
            "functions, one with a block of 65,535 paths",
            [1, 0, 0, 65_535, 3],
            || {
                let mut file = Vec::new();
                Function {
                    name: Text::new(b"f"),
                    size: None,
                    block: large(&mut Random::new(1), REVISION, [0, 0, 65_535], 1),
                }
                .write(&mut file);
                file
            },
        ),
    ]
}

/// Functions with names of a few letters and blocks of a few records.
fn many(count: usize) -> Vec<u8> {
    let r = &mut Random::new(1);
    let mut file = Vec::new();
    for number in 0..count {
        Function {
            name: Text::new(format!("function_{number}").as_bytes()),
            size: None,
            block: small_block(r),
        }
        .write(&mut file);
    }
    file
}

fn small_block(r: &mut Random) -> Block {
    loop {
        let block = small_at(r, REVISION);
        if few_families(&block) {
            return block;
        }
    }
}

fn of(name: &str, rooms: Rooms, file: fn() -> Vec<u8>) -> Plan {
    plan(name, move |name| row(name, file(), rooms))
}

fn row(name: String, file: Vec<u8>, rooms: Rooms) -> Row {
    let tables = RefCell::new(Tables::new(rooms));
    let rust = oracle::functions::functions(&file, 0, REVISION).map(|found| Decoded {
        functions: found.functions.len(),
        last: found
            .functions
            .last()
            .map(|f| (f.head.code, f.block.layout)),
    });
    assert_eq!(rust, port(&file, &mut tables.borrow_mut()), "{name}");
    let same = file.clone();
    Row {
        name,
        bytes: file.len(),
        rust: calls(move || rust_summary(black_box(&same))),
        port: calls(move || port_summary(port(black_box(&file), &mut tables.borrow_mut()))),
    }
}

/// What is lent.
struct Tables {
    functions: Vec<u64>,
    strings: Vec<u64>,
    symbols: Vec<DebugSymbol>,
    paths: Vec<u64>,
    families: Vec<u8>,
}

impl Tables {
    fn new(rooms: Rooms) -> Self {
        Self {
            functions: vec![0; rooms[0]],
            strings: vec![0; rooms[1]],
            symbols: vec![DebugSymbol::default(); rooms[2]],
            paths: vec![0; rooms[3]],
            families: vec![0; rooms[4]],
        }
    }
}

fn port(file: &[u8], tables: &mut Tables) -> Answer<Decoded> {
    let lent = Lent {
        functions: &mut tables.functions,
        strings: &mut tables.strings,
        symbols: &mut tables.symbols,
        paths: &mut tables.paths,
        families: &mut tables.families,
    };
    decode_functions(file, 0, REVISION, lent).0
}

/// Functions, and the last one's place, counts and places; the offset of a refusal.
fn rust_summary(file: &[u8]) -> u64 {
    match functions_from(file, 0, REVISION) {
        Ok(functions) => {
            let last = functions.last().map_or(0, |f| {
                let paths = f.borrowed_paths.len() + f.write_paths.len();
                f.code_offset
                    + f.strings.len()
                    + f.debug_symbols.len()
                    + paths
                    + f.instr_start_offset
            });
            (functions.len() + last) as u64
        }
        Err(
            DecodeError::InvalidStringTable { offset, .. }
            | DecodeError::TruncatedFunction { offset, .. },
        ) => offset as u64,
        Err(other) => panic!("{other:?}"),
    }
}

fn port_summary(answer: Answer<Decoded>) -> u64 {
    match answer {
        Ok(decoded) => {
            let last = decoded.last.map_or(0, |(code, l)| {
                code + l.strings + l.symbols + l.paths + l.instructions
            });
            (decoded.functions + last) as u64
        }
        Err(refusal) => refusal.offset as u64,
    }
}

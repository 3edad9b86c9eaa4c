//! Blocks. The Rust copies strings, symbols and paths into vectors; the port writes starts and families to lent tables and symbols to a lent
//! list, whose lengths a row states.

use crate::rows::{Plan, Row, calls, plan};
use answers::Answer;
use answers::block::Layout;
use falgnust::calls::BlockTables;
use inputs::block::{Block, each_form, large, small};
use inputs::random::Random;
use oracle::semcode_decode::DecodeError;
use port::block::DebugSymbol;
use std::cell::RefCell;
use std::hint::black_box;

pub const REVISION: u16 = 22;
pub const BASE: usize = 1000;

/// Room for strings, symbols, paths and families.
type Rooms = [usize; 4];

const FULL: Rooms = [256, 8192, 65_535, 4096];

pub fn rows() -> Vec<Plan> {
    vec![
        of("block, 256 strings", [256, 0, 0, 3], || {
            vec![large(&mut Random::new(1), REVISION, [256, 0, 0], 0)]
        }),
        of("block, 8,192 symbols", [0, 8192, 0, 3], || {
            vec![large(&mut Random::new(1), REVISION, [0, 8192, 0], 0)]
        }),
        of(
            "block, 65,535 paths of 1 component",
            [0, 0, 65_535, 3],
            || vec![large(&mut Random::new(1), REVISION, [0, 0, 65_535], 1)],
        ),
        of("block, 2 paths of 65,535 components", [0, 0, 2, 3], || {
            vec![large(&mut Random::new(1), REVISION, [0, 0, 2], 65_535)]
        }),
        of("block, 4,096 families", [0, 0, 0, 4096], || {
            let mut block = large(&mut Random::new(1), REVISION, [0, 0, 0], 0);
            if let Some(signature) = &mut block.signature {
                signature.items = (0..4096).map(|n| 1 + (n % 15) as u8).collect();
            }
            vec![block]
        }),
        of("block, each form, tables fitted", [2, 2, 4, 2], || {
            vec![each_form(&mut Random::new(1), REVISION)]
        }),
        of("block, each form, tables full", FULL, || {
            vec![each_form(&mut Random::new(1), REVISION)]
        }),
        of("blocks, 100 small ones, tables of 8", [8; 4], || {
            smalls(&mut Random::new(1))
        }),
        of(
            "block, refused at its first count, tables of 4",
            [4; 4],
            || {
                let mut early = each_form(&mut Random::new(1), REVISION);
                early.count = Some(257);
                vec![early]
            },
        ),
        of(
            "block, refused at its last byte",
            [256, 8192, 1000, 3],
            || {
                let mut late = large(&mut Random::new(1), REVISION, [256, 8192, 1000], 3);
                late.cut = 1;
                vec![late]
            },
        ),
    ]
}

fn of(name: &str, rooms: Rooms, blocks: fn() -> Vec<Block>) -> Plan {
    plan(name, move |name| row(&name, &blocks(), rooms))
}

/// Small valid blocks, all of one revision and with few families.
pub fn smalls(r: &mut Random) -> Vec<Block> {
    let mut blocks = Vec::new();
    while blocks.len() < 100 {
        let block = small(r);
        if block.revision == REVISION && few_families(&block) {
            blocks.push(block);
        }
    }
    blocks
}

pub fn few_families(block: &Block) -> bool {
    block.signature.as_ref().is_none_or(|s| s.items.len() < 5)
}

fn row(name: &str, blocks: &[Block], rooms: Rooms) -> Row {
    let codes: Vec<Vec<u8>> = blocks.iter().map(Block::bytes).collect();
    let same = codes.clone();
    for code in &codes {
        let rust = oracle::block::block(code, BASE, REVISION).map(|block| block.layout);
        assert_eq!(rust, port(code, &mut Tables::new(rooms)));
    }
    let tables = RefCell::new(Tables::new(rooms));
    Row {
        name: name.to_string(),
        bytes: codes.iter().map(Vec::len).sum(),
        rust: calls(move || {
            same.iter().fold(0, |sum: u64, code| {
                sum.wrapping_add(rust_summary(black_box(code)))
            })
        }),
        port: calls(move || {
            let tables = &mut *tables.borrow_mut();
            codes.iter().fold(0, |sum: u64, code| {
                sum.wrapping_add(port_summary(port(black_box(code), tables)))
            })
        }),
    }
}

/// What is lent.
struct Tables {
    strings: Vec<u64>,
    symbols: Vec<DebugSymbol>,
    paths: Vec<u64>,
    families: Vec<u8>,
}

impl Tables {
    fn new(rooms: Rooms) -> Self {
        Self {
            strings: vec![0; rooms[0]],
            symbols: vec![DebugSymbol::default(); rooms[1]],
            paths: vec![0; rooms[2]],
            families: vec![0; rooms[3]],
        }
    }
}

fn port(code: &[u8], tables: &mut Tables) -> Answer<Layout> {
    port::block::parse_string_table_debug_and_ownership(
        BASE,
        code,
        REVISION,
        &mut tables.symbols,
        BlockTables {
            strings: &mut tables.strings,
            paths: &mut tables.paths,
            families: &mut tables.families,
        },
    )
}

/// Counts and places of a result; the offset of a refusal.
pub fn rust_summary(code: &[u8]) -> u64 {
    match oracle::semcode_decode::block(BASE, code, REVISION) {
        Ok(b) => {
            let paths = b.borrowed_paths.len() + b.write_paths.len();
            let families = b.signature.map_or(0, |signature| signature.families.len());
            (b.strings.len() + b.debug_symbols.len() + paths + families + b.instr_start_offset)
                as u64
        }
        Err(
            DecodeError::InvalidStringTable { offset, .. }
            | DecodeError::InvalidDebugSection { offset, .. }
            | DecodeError::InvalidOwnershipSection { offset, .. }
            | DecodeError::InvalidSignatureSection { offset, .. }
            | DecodeError::ResourceLimit { offset, .. },
        ) => offset as u64,
        Err(other) => panic!("{other:?}"),
    }
}

fn port_summary(answer: Answer<Layout>) -> u64 {
    match answer {
        Ok(l) => (l.strings + l.symbols + l.paths + l.families + l.instructions) as u64,
        Err(refusal) => refusal.offset as u64,
    }
}

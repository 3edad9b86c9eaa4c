//! Questions about a block: a record by its number. The Rust decodes and then looks; the port's functions decode too, with tables as long as
//! the counts.

use crate::blocks::{BASE, REVISION};
use crate::rows::{Plan, Row, calls, plan};
use falgnust::calls::{self as port, BlockTables};
use inputs::block::large;
use inputs::random::Random;
use oracle::semcode_decode::{DecodedAccessPathComponent as Component, block};
use std::cell::RefCell;
use std::hint::black_box;

const LAST: usize = 65_534;

pub fn rows() -> Vec<Plan> {
    vec![
        asked(
            "asked, the last of 256 strings of a block",
            [256, 0, 0],
            0,
            |code| block(BASE, code, REVISION).map_or(0, |b| b.strings[255].len() as u64),
            |code, lent| port::string_number(BASE, code, REVISION, 255, lent).len as u64,
        ),
        asked(
            "asked, the last of 8,192 symbols of a block",
            [0, 8192, 0],
            0,
            |code| block(BASE, code, REVISION).map_or(0, |b| b.debug_symbols[8191].line.into()),
            |code, lent| {
                port::symbol_number(BASE, code, REVISION, 8191, lent)
                    .line
                    .into()
            },
        ),
        asked(
            "asked, the last of 65,535 paths of a block",
            [0, 0, 65_535],
            1,
            |code| {
                block(BASE, code, REVISION)
                    .map_or(0, |b| (b.borrowed_paths.len() + b.write_paths.len()) as u64)
            },
            |code, lent| {
                let path = port::path_number(BASE, code, REVISION, LAST, lent);
                LAST as u64 + path.component_count as u64
            },
        ),
        asked(
            "asked, the last of 65,535 components of a path",
            [0, 0, 1],
            65_535,
            |code| {
                block(BASE, code, REVISION).map_or(0, |b| {
                    let path = b.borrowed_paths.iter().chain(&b.write_paths).next();
                    first_number(&path.expect("a path").components[LAST])
                })
            },
            |code, lent| {
                port::component_number(BASE, code, REVISION, 0, LAST, lent)
                    .component
                    .first
                    .into()
            },
        ),
    ]
}

/// The first number of a component.
fn first_number(component: &Component) -> u64 {
    match *component {
        Component::TupleIndex(n) => n.into(),
        Component::FieldSymbol(n) | Component::SequenceIndexStatic(n) => n.into(),
        Component::AdtPayload { variant, .. } => variant.into(),
    }
}

fn asked(
    name: &str,
    counts: [usize; 3],
    components: usize,
    rust: fn(&[u8]) -> u64,
    port: fn(&[u8], BlockTables) -> u64,
) -> Plan {
    plan(name, move |name| {
        let code = large(&mut Random::new(1), REVISION, counts, components).bytes();
        let [strings, _, paths] = counts;
        let tables = RefCell::new((vec![0; strings], vec![0; paths], vec![0; 3]));
        let same = code.clone();
        Row {
            name,
            bytes: code.len(),
            rust: calls(move || rust(black_box(&same))),
            port: calls(move || {
                let (strings, paths, families) = &mut *tables.borrow_mut();
                let lent = BlockTables {
                    strings,
                    paths,
                    families,
                };
                port(black_box(&code), lent)
            }),
        }
    })
}

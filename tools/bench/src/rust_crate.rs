//! The crate bindings/rust in the place of the Rust: both give the same vectors, which are made and dropped in each call.

use crate::blocks::{self, BASE, REVISION, smalls};
use crate::rows::{Plan, Row, calls, plan};
use crate::sections::{self, SHAPES};
use inputs::block::{each_form, large};
use inputs::random::Random;
use inputs::shapes;
use std::fmt::Debug;
use std::hint::black_box;

pub fn rows() -> Vec<Plan> {
    let mut rows = Vec::new();
    for (name, make) in SHAPES {
        let name = format!("crate, section, 40,000 proofs, {name}");
        rows.push(of_sections(&name, move |r| vec![make(r).bytes()]));
    }
    rows.extend([
        of_sections("crate, section, 65,536 propositions", |r| {
            vec![shapes::many_propositions(r, 65_536, 49).bytes()]
        }),
        of_sections("crate, section, specimen 4", |r| {
            vec![shapes::two_proofs(r).bytes()]
        }),
        of_sections("crate, sections, 100 small ones", |r| {
            (0..100).map(|_| shapes::small(r).bytes()).collect()
        }),
        of_blocks("crate, block, 256 strings", |r| {
            vec![large(r, REVISION, [256, 0, 0], 0).bytes()]
        }),
        of_blocks("crate, block, 8,192 symbols", |r| {
            vec![large(r, REVISION, [0, 8192, 0], 0).bytes()]
        }),
        of_blocks("crate, block, 65,535 paths of 1 component", |r| {
            vec![large(r, REVISION, [0, 0, 65_535], 1).bytes()]
        }),
        of_blocks("crate, block, 2 paths of 65,535 components", |r| {
            vec![large(r, REVISION, [0, 0, 2], 65_535).bytes()]
        }),
        of_blocks("crate, block, each form", |r| {
            vec![each_form(r, REVISION).bytes()]
        }),
        of_blocks("crate, blocks, 100 small ones", |r| {
            smalls(r).iter().map(|block| block.bytes()).collect()
        }),
    ]);
    rows
}

type Inputs = Vec<Vec<u8>>;

fn of_sections(name: &str, make: impl Fn(&mut Random) -> Inputs + 'static) -> Plan {
    plan(name, move |name| {
        let files = make(&mut Random::new(1));
        for file in &files {
            let rust = oracle::evr0::decode_evr0_section(file, &mut 0);
            let port = falgnust::evr0::decode_evr0_section(file, &mut 0);
            let port = format!("{port:?}").replacen("schema: 1, ", "", 1); // no field of the Rust's
            assert_eq!(format!("{rust:?}"), port);
        }
        row(name, files, sections::rust_summary, section)
    })
}

fn of_blocks(name: &str, make: impl Fn(&mut Random) -> Inputs + 'static) -> Plan {
    plan(name, move |name| {
        let codes = make(&mut Random::new(1));
        for code in &codes {
            let rust = oracle::semcode_decode::block(BASE, code, REVISION).expect("accepted");
            let port = decode_block(code).expect("accepted");
            same(&rust.strings, &port.strings);
            same(&rust.debug_symbols, &port.debug_symbols);
            same(&rust.borrowed_paths, &port.borrowed_paths);
            same(&rust.write_paths, &port.write_paths);
        }
        row(name, codes, blocks::rust_summary, block)
    })
}

/// The types have the same names on both sides.
fn same(rust: &impl Debug, port: &impl Debug) {
    assert_eq!(format!("{rust:?}"), format!("{port:?}"));
}

fn row(name: String, inputs: Inputs, rust: fn(&[u8]) -> u64, port: fn(&[u8]) -> u64) -> Row {
    let same = inputs.clone();
    let sum = |inputs: &Inputs, of: fn(&[u8]) -> u64| {
        let summaries = inputs.iter().map(|input| of(black_box(input)));
        summaries.fold(0, u64::wrapping_add)
    };
    Row {
        name,
        bytes: inputs.iter().map(Vec::len).sum(),
        rust: calls(move || sum(&same, rust)),
        port: calls(move || sum(&inputs, port)),
    }
}

fn section(file: &[u8]) -> u64 {
    let mut cursor = 0;
    match falgnust::evr0::decode_evr0_section(file, &mut cursor) {
        Ok(d) => {
            let counts =
                d.propositions.len() + d.proofs.len() + d.witnesses.len() + d.parents.len();
            (counts + d.epoch as usize + cursor) as u64
        }
        Err(error) => error.offset as u64,
    }
}

fn decode_block(
    code: &[u8],
) -> Result<
    falgnust::semcode_decode::StringTableDebugOwnershipParse,
    falgnust::semcode_decode::DecodeError,
> {
    falgnust::semcode_decode::parse_string_table_debug_and_ownership(BASE, code, REVISION)
}

fn block(code: &[u8]) -> u64 {
    match decode_block(code) {
        Ok(b) => {
            let paths = b.borrowed_paths.len() + b.write_paths.len();
            let families = b.signature.map_or(0, |signature| signature.families.len());
            (b.strings.len() + b.debug_symbols.len() + paths + families + b.instr_start_offset)
                as u64
        }
        Err(error) => error.offset().unwrap_or_default() as u64,
    }
}

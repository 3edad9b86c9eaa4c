//! A file through the crate that callers link: the Rust's functions field for field, or its error with message and number.

use crate::block_binding::{Told, path, rust_told, signature, symbol, told};
use crate::function_compare::what;
use crate::tally::Tally;
use answers::Answer;
use answers::functions::File;
use falgnust::semcode_decode as port;
use inputs::cases::FileCase;
use oracle::semcode_decode as rust;

pub fn compare(tally: &mut Tally, case: &FileCase) {
    let rust = rust_told(rust::functions_from(&case.file, case.cursor, case.revision));
    let port = told(port::decode_functions(
        &case.file,
        case.cursor,
        case.revision,
    ));
    let port = port.map(|all| all.into_iter().map(envelope).collect());
    tally.same(&rust, &port, || format!("the binding, {}", what(case)));
}

/// A function by its number: none is 62.
pub fn by_number(tally: &mut Tally, case: &FileCase, rust: &Answer<File>, number: usize) {
    let all = rust_told(rust::functions_from(&case.file, case.cursor, case.revision));
    let expected: Told<Option<_>> = all.map(|all| all.into_iter().nth(number));
    let port = port::function_number(&case.file, case.cursor, case.revision, number);
    let port = told(port).map(|found| found.map(envelope));
    assert_eq!(expected.is_ok(), rust.is_ok(), "one answer of the Rust");
    tally.same(&expected, &port, || {
        format!("the binding, function {number}, {}", what(case))
    });
}

/// As the Rust has it.
fn envelope(f: port::DecodedFunctionEnvelope) -> rust::DecodedFunctionEnvelope {
    rust::DecodedFunctionEnvelope {
        name: f.name,
        name_offset: f.name_offset,
        code_offset: f.code_offset,
        code_len: f.code_len,
        strings: f.strings,
        debug_symbols: f.debug_symbols.into_iter().map(symbol).collect(),
        borrowed_paths: f.borrowed_paths.into_iter().map(path).collect(),
        write_paths: f.write_paths.into_iter().map(path).collect(),
        has_ownership_section: f.has_ownership_section,
        has_debug_section: f.has_debug_section,
        string_table_end_offset: f.string_table_end_offset,
        signature: f.signature.map(signature),
        instr_start_offset: f.instr_start_offset,
        code_slice: f.code_slice,
    }
}

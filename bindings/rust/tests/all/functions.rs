//! The functions of a file.

use falgnust::calls::{BlockTables, decode_functions as decode};
use falgnust::raw::DebugSymbol;
use falgnust::semcode_decode::{
    CallableValueFamily, DecodeError, MAX_FUNCTIONS, decode_functions, function_number,
};

/// A function with a block at revision 19.
fn function(name: &str, block: &[u8]) -> Vec<u8> {
    let mut out = (name.len() as u16).to_le_bytes().to_vec();
    out.extend(name.as_bytes());
    out.extend((block.len() as u32).to_le_bytes());
    out.extend(block);
    out
}

/// The example file, whose functions stand from 8 on.
const EXAMPLE: &[u8] = include_bytes!("../../../../examples/functions.semcode");

#[test]
fn the_example() {
    let functions = decode_functions(EXAMPLE, 8, 22).unwrap();
    let names: Vec<&str> = functions.iter().map(|f| f.name.as_str()).collect();
    assert_eq!(names, ["l\u{e4}s_post", "namn", "st\u{e4}ng"]);
    assert_eq!(functions[0].strings, ["l\u{e5}s", ""]);
    assert_eq!(functions[0].debug_symbols.len(), 2);
    assert_eq!(functions[0].borrowed_paths[0].root_symbol_id, 9);
    assert_eq!(functions[0].write_paths[0].root_symbol_id, 11);
    let families = [CallableValueFamily::Text, CallableValueFamily::Record];
    let signature = functions[0].signature.as_ref().unwrap();
    assert_eq!(signature.families, families);
    assert_eq!(functions[1].strings, ["\u{c5}sa"]);
    assert_eq!(
        functions[2].code_slice,
        b"\x00\x00OWN0\x00\x00SIG0\x00\x00\x04\x05\x06"
    );
    let mut at = 8;
    for (number, f) in functions.iter().enumerate() {
        assert_eq!((f.name_offset, f.code_len), (at, f.code_slice.len()));
        assert_eq!(f.code_offset, at + 2 + f.name.len() + 4);
        assert_eq!(function_number(EXAMPLE, 8, 22, number), Ok(Some(f.clone())));
        at = f.code_offset + f.code_len;
    }
    assert_eq!(at, EXAMPLE.len());
    for past in [3, usize::MAX] {
        assert_eq!(function_number(EXAMPLE, 8, 22, past), Ok(None));
    }
}

#[test]
fn a_cursor_past_the_end() {
    for cursor in [EXAMPLE.len(), EXAMPLE.len() + 1, usize::MAX] {
        assert_eq!(decode_functions(EXAMPLE, cursor, 19), Ok(vec![]));
        assert_eq!(function_number(EXAMPLE, cursor, 19, 0), Ok(None));
    }
}

/// Each message of 63 and 64, after a function that is accepted.
#[test]
fn messages() {
    let before = function("f", b"\x00\x00");
    let start = before.len();
    let cut = |offset, msg| DecodeError::TruncatedFunction { offset, msg };
    let name = |offset, msg| DecodeError::InvalidFunctionName { offset, msg };
    let cases: [(&[u8], DecodeError); 7] = [
        (b"\x01", cut(start, "missing function name length")),
        (
            b"\x01\x00g\0\0\0",
            cut(start + 3, "missing function code length"),
        ),
        (
            b"\x01\x00g\x01\0\0\0",
            cut(start + 7, "function code out of bounds"),
        ),
        (b"\x00\x00", name(start + 2, "empty function name")),
        (b"\x01\x04", name(start + 2, "function name too long")),
        (
            b"\x01\x00",
            name(start + 2, "invalid utf8 in function name"),
        ),
        (
            b"\x01\x00\xff",
            name(start + 2, "invalid utf8 in function name"),
        ),
    ];
    for (more, expected) in cases {
        let file = [&before[..], more].concat();
        let error = decode_functions(&file, 0, 19).unwrap_err();
        assert_eq!(error, expected);
        let number = match expected {
            DecodeError::TruncatedFunction { .. } => 63,
            _ => 64,
        };
        assert_eq!(error.number(), Some(number));
        assert_eq!(function_number(&file, 0, 19, 0), Err(expected));
    }
}

/// A block's own error, with the count in its message, at its place in the file.
#[test]
fn a_fault_in_a_later_block() {
    let mut file = function("f", b"\x00\x00");
    file.extend(function("g", b"\x01\x01"));
    file.push(1);
    let expected = DecodeError::ResourceLimit {
        offset: 18,
        msg: "too many strings in function: 257 (max 256)".into(),
    };
    assert_eq!(decode_functions(&file, 0, 19), Err(expected));
}

#[test]
fn the_most_functions() {
    let most = function("f", b"\x00\x00").repeat(MAX_FUNCTIONS);
    assert_eq!(decode_functions(&most, 0, 19).unwrap().len(), MAX_FUNCTIONS);
    let file = [&most[..], b"\x01"].concat();
    let error = decode_functions(&file, 0, 19).unwrap_err();
    let expected = DecodeError::ResourceLimit {
        offset: most.len(),
        msg: "too many functions (>1024)".into(),
    };
    assert_eq!(error, expected);
    assert_eq!(error.number(), Some(65));
}

/// A table of (length - cursor) / 9 + 1 starts is long enough, and one entry less is not for the smallest functions and a cut one.
#[test]
fn the_least_table() {
    let smallest = function("f", b"\x00\x00");
    for count in 0..5 {
        let file = [&smallest.repeat(count)[..], b"\x01"].concat();
        let number = |entries| {
            let lent = BlockTables {
                strings: &mut [],
                paths: &mut [],
                families: &mut [],
            };
            let symbols: &mut [DebugSymbol] = &mut [];
            let mut starts = vec![7; entries];
            let answer = decode(&file, 0, 19, symbols, &mut starts, lent);
            assert!(starts.iter().all(|start| *start == 0));
            answer.refusal.number
        };
        let enough = file.len() / 9 + 1;
        assert_eq!(number(enough), 63);
        assert_eq!(number(enough - 1), 61);
    }
}

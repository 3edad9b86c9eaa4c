//! Files of functions.

use super::BlockTables;
use crate::raw::*;

/// All functions from a cursor to the end. `lent` and `symbols` take the last one's block, `functions` the start of each.
#[inline]
pub fn decode_functions(
    bytes: &[u8],
    cursor: usize,
    header_rev: u16,
    symbols: &mut [DebugSymbol],
    functions: &mut [u64],
    lent: BlockTables,
) -> Functions {
    call!(falgnust_decode_functions(in bytes, cursor, header_rev, out symbols, out functions, block lent))
}

/// The head of the function at a place of a file.
#[inline]
pub fn read_function(bytes: &[u8], at: usize) -> Function {
    call!(falgnust_read_function(in bytes, at))
}

/// The head of a function by its number.
#[inline]
pub fn function_number(
    bytes: &[u8],
    cursor: usize,
    header_rev: u16,
    number: usize,
    functions: &mut [u64],
    lent: BlockTables,
) -> Function {
    call!(falgnust_function_number(in bytes, cursor, header_rev, number, out functions, block lent))
}

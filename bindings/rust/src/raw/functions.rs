//! Files of functions: crates/falgnust/src/functions.rt

use super::{Block, DebugSymbol, Refusal, Span};

/// All functions of a file.
#[repr(C)]
#[derive(Debug, Default, Clone, Copy, PartialEq, Eq)]
pub struct Functions {
    /// Whether the file has functions to its end.
    pub accepted: bool,
    /// Why not.
    pub refusal: Refusal,
    /// How many functions there are.
    pub functions: usize,
    /// After them; after a refusal, the cursor that was brought.
    pub cursor: usize,
    /// Where the last one's block stands in the file.
    pub last_code: usize,
    /// The last one's block, which the list and the tables of a block belong to; not accepted and zeros where there is no function.
    pub last: Block,
}

/// A function's head.
#[repr(C)]
#[derive(Debug, Default, Clone, Copy, PartialEq, Eq)]
pub struct Function {
    /// Whether there is one.
    pub accepted: bool,
    /// Why not.
    pub refusal: Refusal,
    /// Its name, as places in the file.
    pub name: Span,
    /// Where its block stands in the file.
    pub code_offset: usize,
    /// How long its block is.
    pub code_len: usize,
    /// The place after the function.
    pub next: usize,
}

unsafe extern "C" {
    /// All functions from a cursor to the end. The start of each goes to `functions`; the list and the other three tables end as the last
    /// function's block leaves them.
    pub fn falgnust_decode_functions(
        bytes: *const u8,
        bytes_len: usize,
        cursor: usize,
        header_rev: u16,
        symbols: *mut DebugSymbol,
        symbols_len: usize,
        functions: *mut u64,
        functions_len: usize,
        strings: *mut u64,
        strings_len: usize,
        paths: *mut u64,
        paths_len: usize,
        families: *mut u8,
        families_len: usize,
    ) -> Functions;

    /// The head of the function at a place of a file, as its start in the table is. Its block is not decoded.
    pub fn falgnust_read_function(bytes: *const u8, bytes_len: usize, at: usize) -> Function;

    /// The head of a function by its number. It decodes all functions anew, and refuses with 62 a number that the file does not have.
    pub fn falgnust_function_number(
        bytes: *const u8,
        bytes_len: usize,
        cursor: usize,
        header_rev: u16,
        number: usize,
        functions: *mut u64,
        functions_len: usize,
        strings: *mut u64,
        strings_len: usize,
        paths: *mut u64,
        paths_len: usize,
        families: *mut u8,
        families_len: usize,
    ) -> Function;
}

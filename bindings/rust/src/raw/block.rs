//! Blocks: crates/falgnust/src/{block,record,number}.rt

use super::{Refusal, Text};

/// A function's block.
#[repr(C)]
#[derive(Debug, Default, Clone, Copy, PartialEq, Eq)]
pub struct Block {
    /// Whether there is a block.
    pub accepted: bool,
    /// Why not.
    pub refusal: Refusal,
    /// Whether DBG0 follows the strings.
    pub has_debug_section: bool,
    /// Whether OWN0 follows that.
    pub has_ownership_section: bool,
    /// Whether a signature follows that: from revision 20 on.
    pub has_signature: bool,
    /// How many strings there are.
    pub string_count: usize,
    /// The place after the strings.
    pub string_table_end_offset: usize,
    /// How many debug symbols there are.
    pub debug_symbol_count: usize,
    /// Where the first one stands, or would.
    pub debug_symbols_start: usize,
    /// How many paths there are.
    pub path_count: usize,
    /// How many parameters the signature has.
    pub parameter_count: usize,
    /// Where the first one's family stands, or would.
    pub families_start: usize,
    /// Where the instructions start.
    pub instr_start_offset: usize,
}

/// A block whose words stand at the front of a table that is lent.
#[repr(C)]
#[derive(Debug, Default, Clone, Copy, PartialEq, Eq)]
pub struct BlockWords {
    /// The block.
    pub block: Block,
    /// How many words it has; 0 beside a refusal.
    pub words: usize,
}

/// A debug symbol in a list that is lent.
#[repr(C)]
#[derive(Debug, Default, Clone, Copy, PartialEq, Eq)]
pub struct DebugSymbol {
    /// Its place in the instructions.
    pub pc: usize,
    /// Its line.
    pub line: u32,
    /// Its column.
    pub col: u16,
}

/// A debug symbol with its own answer.
#[repr(C)]
#[derive(Debug, Default, Clone, Copy, PartialEq, Eq)]
pub struct Symbol {
    /// Whether there is one.
    pub accepted: bool,
    /// Why not.
    pub refusal: Refusal,
    /// Its place in the instructions.
    pub pc: usize,
    /// Its line.
    pub line: u32,
    /// Its column.
    pub col: u16,
    /// The place after it.
    pub next: usize,
}

/// What a path is about: 0 a borrow without activation, 1 on frame entry, 2 at a store site; 3 a write without execution, 4 at a store
/// site, 5 at a record site.
#[repr(C)]
#[derive(Debug, Default, Clone, Copy, PartialEq, Eq)]
pub struct Event {
    /// 0 to 5.
    pub event: u8,
    /// The site of 2, 4 and 5.
    pub site: u32,
}

/// A path without its components.
#[repr(C)]
#[derive(Debug, Default, Clone, Copy, PartialEq, Eq)]
pub struct Path {
    /// Whether there is one.
    pub accepted: bool,
    /// Why not.
    pub refusal: Refusal,
    /// A borrow or a write.
    pub event: Event,
    /// Its root.
    pub root_symbol_id: u32,
    /// How many components it has.
    pub component_count: u16,
    /// Where the first one stands, or would.
    pub components_start: usize,
    /// The place after the path.
    pub next: usize,
}

/// What a component holds: 0 a tuple index, 1 a field symbol, 2 a variant and its index, 3 a sequence index.
#[repr(C)]
#[derive(Debug, Default, Clone, Copy, PartialEq, Eq)]
pub struct Parts {
    /// 0 to 3.
    pub kind: u8,
    /// The index, symbol or variant.
    pub first: u32,
    /// The variant's index.
    pub second: u16,
}

/// A component of a path.
#[repr(C)]
#[derive(Debug, Default, Clone, Copy, PartialEq, Eq)]
pub struct Component {
    /// Whether there is one.
    pub accepted: bool,
    /// Why not.
    pub refusal: Refusal,
    /// What it holds.
    pub component: Parts,
    /// The place after it.
    pub next: usize,
}

unsafe extern "C" {
    /// A block: counts, tags found and places. Each debug symbol goes to the list, the start of each string and of each path to the two
    /// tables, and the families to the table of bytes.
    pub fn falgnust_parse_string_table_debug_and_ownership(
        base_offset: usize,
        code: *const u8,
        code_len: usize,
        header_rev: u16,
        symbols: *mut DebugSymbol,
        symbols_len: usize,
        strings: *mut u64,
        strings_len: usize,
        paths: *mut u64,
        paths_len: usize,
        families: *mut u8,
        families_len: usize,
    ) -> Block;

    /// A block, and the words of its records in one table: of each string 2, the place and the length of its bytes; of each symbol 3, pc, line and
    /// column; of each path those of [`falgnust_path_words`](super::falgnust_path_words). A family is the byte of the block at its place. 61 at the block's
    /// end where they do not fit. Entries past the words are left as they were.
    pub fn falgnust_block_words(
        base_offset: usize,
        code: *const u8,
        code_len: usize,
        header_rev: u16,
        words: *mut u64,
        words_len: usize,
    ) -> BlockWords;

    /// The debug symbol at a place of a block.
    pub fn falgnust_read_debug_symbol(code: *const u8, code_len: usize, at: usize) -> Symbol;
    /// The path at a place of a block, as its start in the table is.
    pub fn falgnust_read_path(code: *const u8, code_len: usize, at: usize, header_rev: u16)
    -> Path;
    /// The component at a place of a path with this event kind (0 borrow, 1 write).
    pub fn falgnust_read_component(
        code: *const u8,
        code_len: usize,
        at: usize,
        header_rev: u16,
        kind: u8,
    ) -> Component;

    /// A component of a path, both by number. It decodes the block anew, as the others do.
    pub fn falgnust_component_number(
        base_offset: usize,
        code: *const u8,
        code_len: usize,
        header_rev: u16,
        number: usize,
        component: usize,
        strings: *mut u64,
        strings_len: usize,
        paths: *mut u64,
        paths_len: usize,
        families: *mut u8,
        families_len: usize,
    ) -> Component;
}

/// Functions that ask for one record of a block by its number.
macro_rules! of_block {
    ($($(#[$doc:meta])* $name:ident -> $answer:ty;)*) => {
        unsafe extern "C" {
            $(
                $(#[$doc])*
                pub fn $name(
                    base_offset: usize,
                    code: *const u8,
                    code_len: usize,
                    header_rev: u16,
                    number: usize,
                    strings: *mut u64,
                    strings_len: usize,
                    paths: *mut u64,
                    paths_len: usize,
                    families: *mut u8,
                    families_len: usize,
                ) -> $answer;
            )*
        }
    };
}

of_block! {
    /// A string by its number. As the others here, it decodes the block anew, fills the three tables as
    /// [`falgnust_parse_string_table_debug_and_ownership`] does, and refuses with 62 a number that the block does not have.
    falgnust_string_number -> Text;
    /// A debug symbol by its number.
    falgnust_symbol_number -> Symbol;
    /// A path by its number.
    falgnust_path_number -> Path;
}

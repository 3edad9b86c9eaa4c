//! Each C function of [`raw`](crate::raw) on slices: a slice is a pointer that is valid for its length, and tables that are lent as `&mut` overlap
//! nothing. The contracts of these functions, in crates/falgnust/src, have no `requires`: any slices and any numbers do. Other unsafe code of this
//! crate takes room as written (calls/room.rs) and bytes as UTF-8 (`read::text`), where a contract that is named there says so.

use crate::raw::*;

/// A call of a C function with the arguments of its declaration: `in` a slice that is read, `out` one that is lent, `room` one that need not be written
/// before, `section` or `block` its lent tables, `marked` a section with all its tables; others go as they are.
macro_rules! call {
    ($function:ident($($arguments:tt)*)) => {
        call!(@ $function [] $($arguments)*)
    };
    (@ $function:ident [$($c:expr),*]) => {
        // SAFETY: the pointers are of slices and references; the function's contract in crates/falgnust/src asks nothing of its arguments.
        unsafe { $function($($c),*) }
    };
    (@ $function:ident [$($c:expr),*] in $slice:ident $(, $($rest:tt)*)?) => {
        call!(@ $function [$($c,)* $slice.as_ptr(), $slice.len()] $($($rest)*)?)
    };
    (@ $function:ident [$($c:expr),*] out $table:ident $(, $($rest:tt)*)?) => {
        call!(@ $function [$($c,)* $table.as_mut_ptr(), $table.len()] $($($rest)*)?)
    };
    (@ $function:ident [$($c:expr),*] room $room:ident $(, $($rest:tt)*)?) => {
        call!(@ $function [$($c,)* $room.as_mut_ptr().cast(), $room.len()] $($($rest)*)?)
    };
    (@ $function:ident [$($c:expr),*] section $lent:ident $(, $($rest:tt)*)?) => {{
        let SectionTables { propositions, proofs, depths } = $lent;
        call!(@ $function [$($c),*] out propositions, out proofs, out depths $(, $($rest)*)?)
    }};
    (@ $function:ident [$($c:expr),*] block $lent:ident $(, $($rest:tt)*)?) => {{
        let BlockTables { strings, paths, families } = $lent;
        call!(@ $function [$($c),*] out strings, out paths, out families $(, $($rest)*)?)
    }};
    (@ $function:ident [$($c:expr),*] marked $lent:ident $(, $($rest:tt)*)?) => {{
        let Lent { bytes, cursor, tables, marks, authorised } = $lent;
        call!(@ $function [$($c),*] in bytes, cursor, section tables, out marks, out authorised $(, $($rest)*)?)
    }};
    (@ $function:ident [$($c:expr),*] $value:ident $(, $($rest:tt)*)?) => {
        call!(@ $function [$($c,)* $value] $($($rest)*)?)
    };
}

mod columns;
mod compare;
mod functions;
mod locks;
mod room;
mod rounds;
mod rules;
pub use columns::*;
pub use compare::*;
pub use functions::*;
pub use locks::*;
pub use room::*;
pub use rounds::*;
pub use rules::*;

/// The tables that are lent for a section: the start of each proposition and of each proof in the payload, and each proof's depth.
pub struct SectionTables<'a> {
    /// One entry for each proposition.
    pub propositions: &'a mut [u64],
    /// One entry for each proof.
    pub proofs: &'a mut [u64],
    /// One entry for each proof.
    pub depths: &'a mut [u64],
}

/// The tables that are lent for a block: the start of each string and of each path, and the family of each parameter.
pub struct BlockTables<'a> {
    /// One entry for each string.
    pub strings: &'a mut [u64],
    /// One entry for each path.
    pub paths: &'a mut [u64],
    /// One byte for each parameter of the signature.
    pub families: &'a mut [u8],
}

/// A field of 1 byte.
#[inline]
pub fn read_u8(bytes: &[u8], at: usize) -> Field {
    call!(falgnust_read_u8(in bytes, at))
}

/// A field of 2 bytes.
#[inline]
pub fn read_u16_le(bytes: &[u8], at: usize) -> Field {
    call!(falgnust_read_u16_le(in bytes, at))
}

/// A field of 4 bytes.
#[inline]
pub fn read_u32_le(bytes: &[u8], at: usize) -> Field {
    call!(falgnust_read_u32_le(in bytes, at))
}

/// Whether a fixed byte string stands at a place.
#[inline]
pub fn tag_at(bytes: &[u8], at: usize, tag: &[u8]) -> bool {
    call!(falgnust_tag_at(in bytes, at, in tag))
}

/// What bytes are.
#[inline]
pub fn scan(bytes: &[u8]) -> Scanned {
    call!(falgnust_scan(in bytes))
}

/// What so many bytes at a place are.
#[inline]
pub fn read_utf8(bytes: &[u8], at: usize, len: usize) -> Utf8 {
    call!(falgnust_read_utf8(in bytes, at, len))
}

/// A text of a section.
#[inline]
pub fn read_text(bytes: &[u8], at: usize) -> Text {
    call!(falgnust_read_text(in bytes, at))
}

/// A string of a block.
#[inline]
pub fn read_string(bytes: &[u8], at: usize) -> Text {
    call!(falgnust_read_string(in bytes, at))
}

/// The section at a cursor. Each proof's mark goes to a table of bytes that is lent, too: 1 where every walk down from the proof ends at a
/// positive witness, 2 where every one ends at a negative witness, else 3.
#[inline]
pub fn decode_evr0_section(
    bytes: &[u8],
    cursor: usize,
    lent: SectionTables,
    marks: &mut [u8],
) -> Section {
    call!(falgnust_decode_evr0_section(in bytes, cursor, section lent, out marks))
}

/// The section at a cursor, without the marks.
#[inline]
pub fn decode_evr0_unmarked(bytes: &[u8], cursor: usize, lent: SectionTables) -> Section {
    call!(falgnust_decode_evr0_unmarked(in bytes, cursor, section lent))
}

/// A proposition of the section at a cursor.
#[inline]
pub fn proposition_number(
    bytes: &[u8],
    cursor: usize,
    number: u32,
    lent: SectionTables,
) -> Proposition {
    call!(falgnust_proposition_number(in bytes, cursor, number, section lent))
}

/// A proof of the section at a cursor.
#[inline]
pub fn proof_number(bytes: &[u8], cursor: usize, number: u32, lent: SectionTables) -> Proof {
    call!(falgnust_proof_number(in bytes, cursor, number, section lent))
}

/// A witness of the section at a cursor.
#[inline]
pub fn witness_number(bytes: &[u8], cursor: usize, number: u32, lent: SectionTables) -> Witness {
    call!(falgnust_witness_number(in bytes, cursor, number, section lent))
}

/// A parent cell of the section at a cursor.
#[inline]
pub fn parent_number(bytes: &[u8], cursor: usize, number: u32, lent: SectionTables) -> Parent {
    call!(falgnust_parent_number(in bytes, cursor, number, section lent))
}

/// Whether a proposition of the section at a cursor is authorised: some proof of it has operation 1 and mark 1. The marks go to a table that is
/// lent, too.
#[inline]
pub fn authorised(
    bytes: &[u8],
    cursor: usize,
    proposition: u32,
    lent: SectionTables,
    marks: &mut [u8],
) -> Authorised {
    call!(falgnust_authorised(in bytes, cursor, proposition, section lent, out marks))
}

/// The way down from a proof of the section at a cursor, with at most `limit` moves.
#[inline]
pub fn way_down(
    bytes: &[u8],
    cursor: usize,
    from: u32,
    limit: u64,
    lent: SectionTables,
) -> WayDown {
    call!(falgnust_way_down(in bytes, cursor, from, limit, section lent))
}

/// The proposition at a place of a payload.
#[inline]
pub fn read_proposition(payload: &[u8], at: usize) -> Proposition {
    call!(falgnust_read_proposition(in payload, at))
}

/// The proof at a place of a payload.
#[inline]
pub fn read_proof(payload: &[u8], at: usize) -> Proof {
    call!(falgnust_read_proof(in payload, at))
}

/// The witness at a place of a payload of this schema.
#[inline]
pub fn read_witness(payload: &[u8], schema: u16, at: usize) -> Witness {
    call!(falgnust_read_witness(in payload, schema, at))
}

/// The parent cell at a place of a payload.
#[inline]
pub fn read_parent(payload: &[u8], at: usize) -> Parent {
    call!(falgnust_read_parent(in payload, at))
}

/// Where a witness stands in a payload of `len` bytes of this schema.
#[inline]
pub fn witness_place(
    len: usize,
    schema: u16,
    witnesses: usize,
    parents: usize,
    number: u32,
) -> usize {
    call!(falgnust_witness_place(
        len, schema, witnesses, parents, number
    ))
}

/// Where a parent cell stands in a payload of `len` bytes.
#[inline]
pub fn parent_place(len: usize, parents: usize, number: u32) -> usize {
    call!(falgnust_parent_place(len, parents, number))
}

/// 5 words of each proposition of a payload that starts at one of these places.
#[inline]
pub fn proposition_words(payload: &[u8], starts: &[u64], words: &mut [u64]) -> bool {
    call!(falgnust_proposition_words(in payload, in starts, out words))
}

/// 10 words of each proof.
#[inline]
pub fn proof_words(payload: &[u8], starts: &[u64], words: &mut [u64]) -> bool {
    call!(falgnust_proof_words(in payload, in starts, out words))
}

/// 7 words of each witness of a payload of this schema.
#[inline]
pub fn witness_words(payload: &[u8], schema: u16, starts: &[u64], words: &mut [u64]) -> bool {
    call!(falgnust_witness_words(in payload, schema, in starts, out words))
}

/// 2 words of each text of a section or string of a block.
#[inline]
pub fn text_words(bytes: &[u8], starts: &[u64], words: &mut [u64]) -> bool {
    call!(falgnust_text_words(in bytes, in starts, out words))
}

/// The words of the paths of a block that start at these places, as many paths as fit: how many.
#[inline]
pub fn path_words(code: &[u8], header_rev: u16, starts: &[u64], words: &mut [u64]) -> usize {
    call!(falgnust_path_words(in code, header_rev, in starts, out words))
}

/// A word of each parent cell from a place on.
#[inline]
pub fn parent_words(payload: &[u8], at: usize, words: &mut [u64]) -> bool {
    call!(falgnust_parent_words(in payload, at, out words))
}

/// A block. Its debug symbols go to a list that is lent, too.
#[inline]
pub fn parse_string_table_debug_and_ownership(
    base_offset: usize,
    code: &[u8],
    header_rev: u16,
    symbols: &mut [DebugSymbol],
    lent: BlockTables,
) -> Block {
    call!(falgnust_parse_string_table_debug_and_ownership(base_offset, in code, header_rev, out symbols, block lent))
}

/// A block, and the words of its records at the front of a table.
#[inline]
pub fn block_words(
    base_offset: usize,
    code: &[u8],
    header_rev: u16,
    words: &mut [u64],
) -> BlockWords {
    call!(falgnust_block_words(base_offset, in code, header_rev, out words))
}

/// A string of a block.
#[inline]
pub fn string_number(
    base_offset: usize,
    code: &[u8],
    header_rev: u16,
    number: usize,
    lent: BlockTables,
) -> Text {
    call!(falgnust_string_number(base_offset, in code, header_rev, number, block lent))
}

/// A debug symbol of a block.
#[inline]
pub fn symbol_number(
    base_offset: usize,
    code: &[u8],
    header_rev: u16,
    number: usize,
    lent: BlockTables,
) -> Symbol {
    call!(falgnust_symbol_number(base_offset, in code, header_rev, number, block lent))
}

/// A path of a block.
#[inline]
pub fn path_number(
    base_offset: usize,
    code: &[u8],
    header_rev: u16,
    number: usize,
    lent: BlockTables,
) -> Path {
    call!(falgnust_path_number(base_offset, in code, header_rev, number, block lent))
}

/// A component of a path of a block.
#[inline]
pub fn component_number(
    base_offset: usize,
    code: &[u8],
    header_rev: u16,
    number: usize,
    component: usize,
    lent: BlockTables,
) -> Component {
    call!(falgnust_component_number(base_offset, in code, header_rev, number, component, block lent))
}

/// The debug symbol at a place of a block.
#[inline]
pub fn read_debug_symbol(code: &[u8], at: usize) -> Symbol {
    call!(falgnust_read_debug_symbol(in code, at))
}

/// The path at a place of a block.
#[inline]
pub fn read_path(code: &[u8], at: usize, header_rev: u16) -> Path {
    call!(falgnust_read_path(in code, at, header_rev))
}

/// The component at a place of a path with this event kind (0 borrow, 1 write).
#[inline]
pub fn read_component(code: &[u8], at: usize, header_rev: u16, kind: u8) -> Component {
    call!(falgnust_read_component(in code, at, header_rev, kind))
}

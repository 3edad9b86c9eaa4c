//! Function tables, in the place of the original's `semcode_decode`: the functions of a file, and the strings, DBG0, OWN0 and signature of a
//! function's block.
//!
//! Added beside the original: [`decode_functions`], which is the loop of its `decode_semcode`, [`DecodeError::number`],
//! [`DecodeError::offset`], `Display` and `Error` for [`DecodeError`], and records by number: [`function_number`], [`string_number`],
//! [`symbol_number`], [`path_number`], [`component_number`].

use crate::calls;
use crate::raw;
use crate::read::{Read, accepted};

mod error;
mod functions;
mod number;
mod records;
mod signature;
mod tables;

pub use error::DecodeError;
pub use functions::*;
pub use number::*;
pub(crate) use records::of_parts;
pub use signature::*;
use tables::Lent;

/// The most functions of a file.
pub const MAX_FUNCTIONS: usize = 1024;
/// The most bytes of a string, and of a function's name.
pub const MAX_STRING_LEN: usize = 1024;
/// The most strings of a block.
pub const MAX_STRINGS_PER_FUNCTION: usize = 256;
/// The most debug symbols of a block.
pub const MAX_DEBUG_SYMBOLS_PER_FUNCTION: usize = 8192;
/// The most parameters of a signature.
pub const MAX_SIGNATURE_PARAMETERS_PER_FUNCTION: usize = 4096;

/// A debug symbol.
#[derive(Debug, Clone, PartialEq, Eq)]
pub struct DecodedDebugSymbol {
    /// Its place in the instructions.
    pub pc: usize,
    /// Its line.
    pub line: u32,
    /// Its column.
    pub col: u16,
}

/// One step of a path.
#[derive(Debug, Clone, PartialEq, Eq)]
pub enum DecodedAccessPathComponent {
    /// Into a tuple.
    TupleIndex(u16),
    /// Into a field.
    FieldSymbol(u32),
    /// Into a variant.
    AdtPayload {
        /// The variant.
        variant: u32,
        /// Its part.
        index: u16,
    },
    /// Into a sequence.
    SequenceIndexStatic(u32),
}

/// When a borrow begins.
#[derive(Debug, Clone, Copy, PartialEq, Eq)]
pub enum DecodedBorrowActivation {
    /// On entry.
    FrameEntry,
    /// At a store.
    StoreVarSite(u32),
}

/// Where a write is done.
#[derive(Debug, Clone, Copy, PartialEq, Eq)]
pub enum DecodedWriteExecution {
    /// At a store.
    StoreVarSite(u32),
    /// At the making of a record.
    MakeRecordSite(u32),
}

/// A path that a function borrows or writes.
#[derive(Debug, Clone, PartialEq, Eq)]
pub struct DecodedAccessPath {
    /// Its root.
    pub root_symbol_id: u32,
    /// Its components.
    pub components: Vec<DecodedAccessPathComponent>,
    /// Of a borrow from revision 21 on.
    pub activation: Option<DecodedBorrowActivation>,
    /// Of a write from revision 21 on.
    pub write_execution: Option<DecodedWriteExecution>,
}

/// The tables of a block. Places are places in the block.
#[derive(Debug, Clone, PartialEq, Eq)]
pub struct StringTableDebugOwnershipParse {
    /// The strings.
    pub strings: Vec<String>,
    /// The debug symbols.
    pub debug_symbols: Vec<DecodedDebugSymbol>,
    /// The paths that are borrowed, in the block's order.
    pub borrowed_paths: Vec<DecodedAccessPath>,
    /// The paths that are written, in the block's order.
    pub write_paths: Vec<DecodedAccessPath>,
    /// Whether OWN0 was found.
    pub has_ownership_section: bool,
    /// Whether DBG0 was found.
    pub has_debug_section: bool,
    /// The place after the strings.
    pub string_table_end_offset: usize,
    /// The signature, from revision 20 on.
    pub signature: Option<CallableSignature>,
    /// The place after all of these.
    pub instr_start_offset: usize,
}

/// Decodes the tables of a function's block, which stands at `base_offset` in its file.
///
/// ```
/// use falgnust::semcode_decode::{DecodeError, parse_string_table_debug_and_ownership};
///
/// let block = parse_string_table_debug_and_ownership(1000, b"\x01\x00\x02\x00hi\x07", 19).unwrap();
/// assert_eq!(block.strings, ["hi"]);
/// assert_eq!(block.instr_start_offset, 6);
///
/// let error = parse_string_table_debug_and_ownership(1000, b"\x01\x01", 22).unwrap_err();
/// assert_eq!((error.number(), error.offset()), (Some(31), Some(1002)));
/// assert_eq!(error.to_string(), "too many strings in function: 257 (max 256) at 1002");
/// assert!(matches!(error, DecodeError::ResourceLimit { .. }));
/// ```
pub fn parse_string_table_debug_and_ownership(
    base_offset: usize,
    code: &[u8],
    header_rev: u16,
) -> Result<StringTableDebugOwnershipParse, DecodeError> {
    Block::new(base_offset, code, header_rev).parse()
}

/// What is decoded.
pub(crate) struct Block<'a> {
    base_offset: usize,
    code: &'a [u8],
    header_rev: u16,
}

impl<'a> Block<'a> {
    pub(crate) fn new(base_offset: usize, code: &'a [u8], header_rev: u16) -> Self {
        Block {
            base_offset,
            code,
            header_rev,
        }
    }

    #[inline]
    fn decode(&self, lent: Lent) -> Read<raw::Block> {
        let answer = calls::parse_string_table_debug_and_ownership(
            self.base_offset,
            self.code,
            self.header_rev,
            lent.symbols,
            lent.starts,
        );
        accepted(answer.accepted, answer.refusal)?;
        Ok(answer)
    }
}

//! The records of a block by number. Each function decodes the block anew, and answers none where the block does not have the number
//! (document 01's 62).

use super::records;
use super::{
    Block, DecodeError, DecodedAccessPath, DecodedAccessPathComponent, DecodedDebugSymbol,
};
use crate::calls;
use crate::read::Read;

/// A path with what is done to it.
#[derive(Debug, Clone, PartialEq, Eq)]
pub enum DecodedEvent {
    /// It is borrowed.
    Borrow(DecodedAccessPath),
    /// It is written.
    Write(DecodedAccessPath),
}

/// A string by its number.
pub fn string_number(
    base_offset: usize,
    code: &[u8],
    header_rev: u16,
    number: usize,
) -> Result<Option<String>, DecodeError> {
    let block = Block::new(base_offset, code, header_rev);
    block.answer(block.lend(|lent| {
        let read = calls::string_number(base_offset, code, header_rev, number, lent.starts);
        block.string(read)
    }))
}

/// A debug symbol by its number.
pub fn symbol_number(
    base_offset: usize,
    code: &[u8],
    header_rev: u16,
    number: usize,
) -> Result<Option<DecodedDebugSymbol>, DecodeError> {
    let block = Block::new(base_offset, code, header_rev);
    block.answer(block.lend(|lent| {
        let read = calls::symbol_number(base_offset, code, header_rev, number, lent.starts);
        records::symbol(read)
    }))
}

/// A path by its number, in the block's order, in which borrows and writes are mixed.
///
/// ```
/// use falgnust::semcode_decode::{DecodedEvent, path_number};
///
/// let block = b"\x00\x00OWN0\x01\x00\x00\x00\x09\x00\x00\x00\x00\x00SIG0\x00\x00";
/// let Ok(Some(DecodedEvent::Borrow(path))) = path_number(0, block, 21, 0) else {
///     panic!("a borrow");
/// };
/// assert_eq!(path.root_symbol_id, 9);
/// assert_eq!(path_number(0, block, 21, 1), Ok(None));
/// ```
pub fn path_number(
    base_offset: usize,
    code: &[u8],
    header_rev: u16,
    number: usize,
) -> Result<Option<DecodedEvent>, DecodeError> {
    let block = Block::new(base_offset, code, header_rev);
    block.answer(block.lend(|lent| {
        let read = calls::path_number(base_offset, code, header_rev, number, lent.starts);
        block.path(read)
    }))
}

/// A component of a path, both by number.
pub fn component_number(
    base_offset: usize,
    code: &[u8],
    header_rev: u16,
    path: usize,
    component: usize,
) -> Result<Option<DecodedAccessPathComponent>, DecodeError> {
    let block = Block::new(base_offset, code, header_rev);
    block.answer(block.lend(|lent| {
        let starts = lent.starts;
        let read = calls::component_number(base_offset, code, header_rev, path, component, starts);
        records::component(read)
    }))
}

impl Block<'_> {
    fn answer<T>(&self, read: Read<T>) -> Result<Option<T>, DecodeError> {
        match read {
            Ok(value) => Ok(Some(value)),
            Err(refusal) if refusal.number == 62 => Ok(None),
            Err(refusal) => Err(self.error(refusal)),
        }
    }
}

//! Calls in room that need not be written before, which give the tables that the call has left there. The contract of each says what a table holds
//! after the call, to the last entry and whatever stood in it (`lent` in crates/lent_table/specs/Lent.antt): so all of it is written. The one exception
//! is `block_words_in`, whose contract says so of the front alone, and which gives no more than that.

use crate::raw::*;
use std::mem::MaybeUninit;

/// 5 words of each proposition of a payload that starts at one of these places. `Fills.table` in crates/record_words/specs/Words.antt says what the
/// table holds, here and for proofs, witnesses and texts.
#[inline]
pub fn proposition_words_in<'a>(
    payload: &[u8],
    starts: &[u64],
    room: &'a mut [MaybeUninit<u64>],
) -> (bool, &'a [u64]) {
    let there = call!(falgnust_proposition_words(in payload, in starts, room room));
    (there, unsafe { room.assume_init_ref() })
}

/// 10 words of each proof.
#[inline]
pub fn proof_words_in<'a>(
    payload: &[u8],
    starts: &[u64],
    room: &'a mut [MaybeUninit<u64>],
) -> (bool, &'a [u64]) {
    let there = call!(falgnust_proof_words(in payload, in starts, room room));
    (there, unsafe { room.assume_init_ref() })
}

/// 7 words of each witness of a payload of this schema.
#[inline]
pub fn witness_words_in<'a>(
    payload: &[u8],
    schema: u16,
    starts: &[u64],
    room: &'a mut [MaybeUninit<u64>],
) -> (bool, &'a [u64]) {
    let there = call!(falgnust_witness_words(in payload, schema, in starts, room room));
    (there, unsafe { room.assume_init_ref() })
}

/// 2 words of each text of a section or string of a block.
#[inline]
pub fn text_words_in<'a>(
    bytes: &[u8],
    starts: &[u64],
    room: &'a mut [MaybeUninit<u64>],
) -> (bool, &'a [u64]) {
    let there = call!(falgnust_text_words(in bytes, in starts, room room));
    (there, unsafe { room.assume_init_ref() })
}

/// A word of each parent cell from a place on: `Runs.table` there.
#[inline]
pub fn parent_words_in<'a>(
    payload: &[u8],
    at: usize,
    room: &'a mut [MaybeUninit<u64>],
) -> (bool, &'a [u64]) {
    let there = call!(falgnust_parent_words(in payload, at, room room));
    (there, unsafe { room.assume_init_ref() })
}

/// The words of the paths of a block that start at these places, as many paths as fit: how many. `Fits.table` in crates/path_words/specs/Words.antt.
#[inline]
pub fn path_words_in<'a>(
    code: &[u8],
    header_rev: u16,
    starts: &[u64],
    room: &'a mut [MaybeUninit<u64>],
) -> (usize, &'a [u64]) {
    let done = call!(falgnust_path_words(in code, header_rev, in starts, room room));
    (done, unsafe { room.assume_init_ref() })
}

/// What `then` makes of a block and of the words of its records. They stand at the front of the room, as many as the answer says, and past them what
/// stood there: `Puts.table` and `words_left` in crates/path_words/specs/Blocks.antt. The answer is not moved, since a copy would wait for it to be
/// written.
#[inline(always)]
pub fn block_words_in<T>(
    base_offset: usize,
    code: &[u8],
    header_rev: u16,
    room: &mut [MaybeUninit<u64>],
    then: impl FnOnce(&Block, &[u64]) -> T,
) -> T {
    let answer = call!(falgnust_block_words(base_offset, in code, header_rev, room room));
    let words = unsafe { room[..answer.words].assume_init_ref() };
    then(&answer.block, words)
}

/// Room for the list and the tables of a block.
pub struct BlockRoom<'a> {
    /// For the debug symbols.
    pub symbols: &'a mut [MaybeUninit<DebugSymbol>],
    /// For the strings.
    pub strings: &'a mut [MaybeUninit<u64>],
    /// For the paths.
    pub paths: &'a mut [MaybeUninit<u64>],
    /// For the families.
    pub families: &'a mut [MaybeUninit<u8>],
}

/// The list and the tables of a block, as a call has left them.
pub struct BlockLists<'a> {
    /// The debug symbols.
    pub symbols: &'a [DebugSymbol],
    /// The start of each string.
    pub strings: &'a [u64],
    /// The start of each path.
    pub paths: &'a [u64],
    /// The families.
    pub families: &'a [u8],
}

/// What `then` makes of a block: `Fills` in crates/semcode_symbols/specs/Symbols.antt and `Decodes` in crates/semcode_decode/specs/Layout.antt say
/// what the list and the tables hold. The answer is not moved, since a copy would wait for it to be written.
#[inline(always)]
pub fn parse_string_table_debug_and_ownership_in<T>(
    base_offset: usize,
    code: &[u8],
    header_rev: u16,
    room: BlockRoom,
    then: impl FnOnce(&Block, &BlockLists) -> T,
) -> T {
    let BlockRoom {
        symbols,
        strings,
        paths,
        families,
    } = room;
    let block = call!(falgnust_parse_string_table_debug_and_ownership(base_offset, in code, header_rev, room symbols, room strings, room paths, room families));
    let lists = unsafe {
        BlockLists {
            symbols: symbols.assume_init_ref(),
            strings: strings.assume_init_ref(),
            paths: paths.assume_init_ref(),
            families: families.assume_init_ref(),
        }
    };
    then(&block, &lists)
}

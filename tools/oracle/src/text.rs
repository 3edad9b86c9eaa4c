//! One text at a place, as the section decoder and the block function read it.

use crate::block::block;
use crate::evr0::{characters, text_at};
use crate::messages::of_section;
use answers::Answer;
use answers::refusal::Refusal;
use answers::text::Span;

/// A text of a section.
pub fn text(bytes: &[u8], at: usize) -> Answer<Span> {
    let (value, next) = text_at(bytes, at).map_err(of_section)?;
    Ok(Span {
        start: at + 2,
        len: value.len(),
        chars: characters(&value),
        next,
    })
}

/// A string of a function: the one string of a block whose count, 1, stands before it. The block ends with the string, so that no tag
/// can follow.
pub fn string(bytes: &[u8], at: usize) -> Answer<Span> {
    let rest = bytes.get(at..).unwrap_or_default();
    let len = match rest {
        [low, high, ..] => 2 + u16::from_le_bytes([*low, *high]) as usize,
        _ => rest.len(),
    };
    let mut alone = vec![1, 0];
    alone.extend_from_slice(&rest[..len.min(rest.len())]);
    match block(&alone, 0, 0) {
        Ok(block) => Ok(Span {
            start: at + 2,
            len: block.strings[0].len(),
            chars: characters(&block.strings[0]),
            next: at + (block.layout.strings_end - 2),
        }),
        Err(refusal) => Err(Refusal {
            offset: at + (refusal.offset - 2),
            ..refusal
        }),
    }
}

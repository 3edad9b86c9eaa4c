//! Texts.

use crate::refusal;
use answers::Answer;
use answers::text::Span;
use falgnust::calls;
use falgnust::raw::Text;

pub(crate) fn answer(t: Text) -> Answer<Span> {
    if !t.accepted {
        return Err(refusal::answer(t.refusal));
    }
    Ok(Span {
        start: t.start,
        len: t.len,
        chars: t.chars,
        next: t.next,
    })
}

#[inline]
pub fn read_text(bytes: &[u8], at: usize) -> Answer<Span> {
    answer(calls::read_text(bytes, at))
}

#[inline]
pub fn read_string(bytes: &[u8], at: usize) -> Answer<Span> {
    answer(calls::read_string(bytes, at))
}

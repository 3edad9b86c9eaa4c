//! UTF-8.

use answers::text::Scanned;
use falgnust::calls;

/// None where the bytes are not UTF-8.
#[inline]
pub fn scan(bytes: &[u8]) -> Option<Scanned> {
    let s = calls::scan(bytes);
    (s.answer != 0).then_some(Scanned {
        chars: s.chars,
        control: s.answer == 2,
    })
}

/// None where the bytes pass the end.
#[inline]
pub fn read_utf8(bytes: &[u8], at: usize, len: usize) -> Option<(Option<Scanned>, usize)> {
    let u = calls::read_utf8(bytes, at, len);
    let scanned = u.text.then_some(Scanned {
        chars: u.chars,
        control: u.control,
    });
    u.whole.then_some((scanned, u.next))
}

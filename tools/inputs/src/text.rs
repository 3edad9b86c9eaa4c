//! Texts: a 2-byte length and that many bytes, well formed or not.

use crate::random::Random;

#[derive(Debug, Clone, PartialEq, Eq, PartialOrd, Ord)]
pub struct Text {
    pub bytes: Vec<u8>,
    /// The length that is written, where it is not that of the bytes.
    pub length: Option<u16>,
}

impl Text {
    pub fn new(bytes: &[u8]) -> Self {
        Text {
            bytes: bytes.to_vec(),
            length: None,
        }
    }

    pub fn write(&self, out: &mut Vec<u8>) {
        let length = self.length.unwrap_or(self.bytes.len() as u16);
        out.extend(length.to_le_bytes());
        out.extend(&self.bytes);
    }
}

/// The first and the last character of each encoded length, those beside the surrogates, a combining mark, and some that only look like control characters.
const CHARACTERS: [char; 21] = [
    ' ',
    '~',
    'k',
    'K',
    '0',
    '-',
    '\u{a0}',
    '\u{e9}',
    '\u{301}',
    '\u{7ff}',
    '\u{800}',
    '\u{2028}',
    '\u{d7ff}',
    '\u{e000}',
    '\u{feff}',
    '\u{ffff}',
    '\u{10000}',
    '\u{1f600}',
    '\u{fffff}',
    '\u{100000}',
    '\u{10ffff}',
];

/// Both ends of both ranges of control characters, and one inside each.
pub const CONTROLS: [char; 6] = ['\0', '\n', '\u{1f}', '\u{7f}', '\u{85}', '\u{9f}'];

/// Bytes that are not well formed: the edges of each row of Table 3-7, and characters that are cut.
pub const ILL_FORMED: [&[u8]; 20] = [
    b"\x80",
    b"\xbf",
    b"\xc0\x80",
    b"\xc1\xbf",
    b"\xc2",
    b"\xc2\x7f",
    b"\xc2\xc0",
    b"\xe0\x9f\xbf",
    b"\xe0\xa0",
    b"\xe1\x80\xc0",
    b"\xed\xa0\x80",
    b"\xed\xbf\xbf",
    b"\xef\xbf",
    b"\xf0\x8f\xbf\xbf",
    b"\xf0\x90\x80",
    b"\xf1\x80\x80\x7f",
    b"\xf4\x90\x80\x80",
    b"\xf4\x8f\xbf",
    b"\xf5\x80\x80\x80",
    b"\xff",
];

pub fn encoded(c: char) -> Vec<u8> {
    c.to_string().into_bytes()
}

/// A character without control characters; most are of one byte.
pub fn character(r: &mut Random) -> char {
    if r.one_in(2) {
        return r.within(0x20, 0x7e) as u8 as char;
    }
    if r.one_in(2) {
        return r.pick(&CHARACTERS);
    }
    let low = r.pick(&[0xa0, 0x800, 0x1_0000]);
    char::from_u32(r.within(low, 0x10_ffff) as u32).unwrap_or('\u{d7ff}')
}

/// `least` bytes and up to three more.
pub fn well_formed(r: &mut Random, least: usize) -> Vec<u8> {
    let mut bytes = Vec::new();
    while bytes.len() < least {
        bytes.extend(encoded(character(r)));
    }
    bytes
}

/// A text of 1 to some twenty bytes, sometimes longer.
pub fn text(r: &mut Random) -> Text {
    let least = if r.one_in(40) {
        r.within(50, 600)
    } else {
        r.within(1, 16)
    };
    Text::new(&well_formed(r, least))
}

/// Puts bytes into a text, at its start, its end or between two of its bytes.
pub fn put(r: &mut Random, text: &mut Text, bytes: &[u8]) {
    let at = r.below(text.bytes.len() + 1);
    text.bytes.splice(at..at, bytes.iter().copied());
}

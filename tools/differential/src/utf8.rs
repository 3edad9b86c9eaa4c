//! UTF-8 against `from_utf8`, `chars().count()` and `is_control`: every string of up to 3 bytes, and edges of longer ones.

use crate::tally::{Tally, hex};
use answers::text::Scanned;
use port::utf8;

/// The bytes at which Table 3-7 or a range of control characters changes.
const EDGES: [u8; 27] = [
    0x00, 0x1f, 0x20, 0x7e, 0x7f, 0x80, 0x8f, 0x90, 0x9f, 0xa0, 0xbf, 0xc0, 0xc1, 0xc2, 0xc3, 0xdf,
    0xe0, 0xe1, 0xec, 0xed, 0xee, 0xef, 0xf0, 0xf3, 0xf4, 0xf5, 0xff,
];

pub fn run() -> Tally {
    let mut tally = Tally::new("utf8");
    compare(&mut tally, &[]);
    for a in 0..=255 {
        compare(&mut tally, &[a]);
        for b in 0..=255 {
            compare(&mut tally, &[a, b]);
            for c in 0..=255 {
                compare(&mut tally, &[a, b, c]);
            }
        }
    }
    for lead in EDGES {
        for a in EDGES {
            for b in EDGES {
                inside_ascii(&mut tally, &[lead, a, b]);
                for c in EDGES {
                    compare(&mut tally, &[lead, a, b, c]);
                }
            }
        }
    }
    every_scalar(&mut tally);
    tally
}

fn rust(bytes: &[u8]) -> Option<Scanned> {
    let text = std::str::from_utf8(bytes).ok()?;
    Some(Scanned {
        chars: text.chars().count(),
        control: text.chars().any(char::is_control),
    })
}

fn compare(tally: &mut Tally, bytes: &[u8]) {
    let rust = rust(bytes);
    let condition = match rust {
        None => "not UTF-8",
        Some(Scanned { control: true, .. }) => "with a control character",
        Some(_) => "without control characters",
    };
    tally.input((0, condition));
    tally.same(&rust, &utf8::scan(bytes), || hex(bytes));
}

/// Bytes before, among and after so many letters, for a scan that takes several at a time.
fn inside_ascii(tally: &mut Tally, bytes: &[u8]) {
    for before in 0..=17 {
        for after in [0, 1, 16] {
            let mut text = vec![b'x'; before];
            text.extend(bytes);
            text.resize(text.len() + after, b'y');
            compare(tally, &text);
        }
    }
}

/// Every scalar value, alone and cut.
fn every_scalar(tally: &mut Tally) {
    for point in 0..=0x10_ffff {
        if let Some(c) = char::from_u32(point) {
            let text = c.to_string();
            compare(tally, text.as_bytes());
            compare(tally, &text.as_bytes()[..text.len() - 1]);
        }
    }
}

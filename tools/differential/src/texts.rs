//! Both texts, and `read_utf8`, at every cut, place and limit.

use crate::fields::places;
use crate::tally::{Outcome, Tally, hex};
use answers::Answer;
use answers::text::{Scanned, Span};
use inputs::random::Random;
use inputs::text::{CONTROLS, ILL_FORMED, Text, encoded, put, well_formed};
use oracle::local_format::{self, SemcodeFormatError};

pub fn run(r: &mut Random, count: usize) -> Tally {
    let mut tally = Tally::new("texts");
    for length in [0, 1, 1023, 1024, 1025, 4095, 4096, 4097, 65_535] {
        for there in [0, 1, length - length.min(1), length, length + 1] {
            limit(&mut tally, length as u16, there);
        }
    }
    for _ in 0..200 {
        let bytes = written(r);
        for end in 0..=bytes.len() {
            for at in places(end) {
                compare(&mut tally, &bytes[..end], at);
            }
        }
    }
    for _ in 0..count {
        let bytes = written(r);
        let at = r.below(bytes.len() + 2);
        compare(&mut tally, &bytes, at);
        compare(&mut tally, &bytes, 0);
    }
    tally
}

/// A text, well formed or not, of up to some forty bytes.
fn written(r: &mut Random) -> Vec<u8> {
    let mut text = Text::new(&well_formed(r, 1));
    let least = r.below(36);
    text.bytes = well_formed(r, least);
    if r.one_in(3) {
        let control = encoded(r.pick(&CONTROLS));
        put(r, &mut text, &control);
    }
    if r.one_in(3) {
        let bytes = r.pick(&ILL_FORMED);
        put(r, &mut text, bytes);
    }
    if r.one_in(6) {
        text.length = Some(r.below(text.bytes.len() + 3) as u16);
    }
    let mut out = Vec::new();
    text.write(&mut out);
    out
}

/// So many bytes under a length: letters, and once with a control character or an ill-formed byte at the end.
fn limit(tally: &mut Tally, length: u16, there: usize) {
    for last in [b'x', 0x1f, 0xff] {
        let mut bytes = length.to_le_bytes().to_vec();
        bytes.resize(2 + there, b'x');
        if there > 0 {
            bytes[1 + there] = last;
        }
        compare(tally, &bytes, 0);
    }
}

fn compare(tally: &mut Tally, bytes: &[u8], at: usize) {
    let rust = oracle::text::text(bytes, at);
    tally.input(outcome(&rust, "text of a section"));
    tally.same(&rust, &port::text::read_text(bytes, at), || {
        format!("read_text at {at} of {}", hex(bytes))
    });

    let rust = oracle::text::string(bytes, at);
    tally.input(outcome(&rust, "string of a function"));
    tally.same(&rust, &port::text::read_string(bytes, at), || {
        format!("read_string at {at} of {}", hex(bytes))
    });

    let len = bytes.first().copied().unwrap_or(0) as usize;
    for len in [0, len, usize::MAX - at, usize::MAX] {
        let rust = read_utf8(bytes, at, len);
        tally.input((0, "read_utf8"));
        tally.same(&rust, &port::utf8::read_utf8(bytes, at, len), || {
            format!("read_utf8 of {len} at {at} of {}", hex(bytes))
        });
    }
}

fn outcome(answer: &Answer<Span>, what: &'static str) -> Outcome {
    match answer {
        Ok(_) => (0, what),
        Err(refusal) => (refusal.number, ""),
    }
}

/// The Rust leaves the cursor where it refuses, so that the place after ill-formed bytes is that of the cut.
fn read_utf8(bytes: &[u8], at: usize, len: usize) -> Option<(Option<Scanned>, usize)> {
    let mut next = at;
    match local_format::read_utf8(bytes, &mut next, len) {
        Ok(text) => {
            let chars = text.chars().count();
            let control = text.chars().any(char::is_control);
            Some((Some(Scanned { chars, control }), next))
        }
        Err(SemcodeFormatError::InvalidUtf8) => Some((None, at + len)),
        Err(_) => None,
    }
}

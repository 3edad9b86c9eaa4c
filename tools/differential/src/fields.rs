//! Fields and tags at every place of short slices, past their end and near 2^64.

use crate::tally::{Tally, hex};
use answers::text::Field;
use inputs::random::Random;
use oracle::local_format::{self, SemcodeFormatError};
use port::{field, tag};

/// Every place of a slice, some past its end, and the last ones.
pub fn places(len: usize) -> impl Iterator<Item = usize> {
    (0..len + 6).chain(usize::MAX - 5..=usize::MAX)
}

pub fn run(r: &mut Random) -> Tally {
    let mut tally = Tally::new("fields");
    for len in 0..=12 {
        for _ in 0..200 {
            let bytes: Vec<u8> = (0..len).map(|_| r.byte()).collect();
            for at in places(len) {
                compare(&mut tally, &bytes, at);
            }
        }
    }
    for tag in [b"EVR0", b"DBG0", b"OWN0"] {
        tags(&mut tally, r, tag);
    }
    tally
}

type Read<T> = fn(&[u8], &mut usize) -> Result<T, SemcodeFormatError>;

fn rust<T: Into<u32>>(read: Read<T>, bytes: &[u8], at: usize) -> Field {
    let mut next = at;
    let value = read(bytes, &mut next).ok()?;
    Some((value.into(), next))
}

fn compare(tally: &mut Tally, bytes: &[u8], at: usize) {
    let pairs = [
        (
            "read_u8",
            rust(local_format::read_u8, bytes, at),
            field::read_u8(bytes, at),
        ),
        (
            "read_u16_le",
            rust(local_format::read_u16_le, bytes, at),
            field::read_u16_le(bytes, at),
        ),
        (
            "read_u32_le",
            rust(local_format::read_u32_le, bytes, at),
            field::read_u32_le(bytes, at),
        ),
    ];
    for (name, rust, port) in pairs {
        tally.input((
            0,
            if rust.is_some() {
                "whole field"
            } else {
                "cut field"
            },
        ));
        tally.same(&rust, &port, || format!("{name} at {at} of {}", hex(bytes)));
    }
}

/// A tag, whole, cut and with a bit changed, at every place.
fn tags(tally: &mut Tally, r: &mut Random, wanted: &[u8]) {
    for before in 0..4 {
        for cut in 0..=4 {
            for bit in 0..33 {
                let mut bytes: Vec<u8> = (0..before).map(|_| r.byte()).collect();
                bytes.extend(wanted);
                if bit < 32 {
                    bytes[before + bit / 8] ^= 1 << (bit % 8);
                }
                bytes.truncate(before + 4 - cut);
                for at in places(bytes.len()) {
                    let rust = bytes.get(at..at.saturating_add(4)) == Some(wanted);
                    let port = tag::tag_at(&bytes, at, wanted);
                    tally.input((0, if rust { "tag" } else { "no tag" }));
                    tally.same(&rust, &port, || format!("tag_at {at} of {}", hex(&bytes)));
                }
            }
        }
    }
}

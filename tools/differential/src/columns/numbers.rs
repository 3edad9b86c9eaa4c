//! Numbers in groups, at each width: every string of up to two bytes behind up to as many groups as the width has, and every string of three
//! bytes at a text's length, but for most bytes behind one that ends a number.

use super::same::take_once;
use crate::tally::Tally;
use inputs::columns::{Columns, Piece, groups};
use inputs::random::Random;
use inputs::shapes;
use inputs::wide::twin;

/// Enough for every section that is rebuilt here.
const ROOM: usize = 700;

/// Groups that come before, all the same.
const BEFORE: [u8; 3] = [0x80, 0x81, 0xFF];

pub fn each(tally: &mut Tally, r: &mut Random) {
    let mut section = shapes::one_proof(r);
    section.witnesses[0].start = 0;
    let schema_2 = twin(&section).expect("a twin");
    // a text's length, a count, an owner, a span's end under either schema
    for (section, place, width) in [
        (&section, 1, 2),
        (&section, 5, 4),
        (&section, 11, 4),
        (&section, 31, 4),
        (&schema_2, 31, 8),
    ] {
        let columns = Columns::of(section);
        let Piece::Number(_, found) = columns.pieces[place] else {
            panic!("a number at {place}");
        };
        assert_eq!(found, width);
        let (before, after) = around(columns, place);
        behind_groups(tally, &before, &after, width);
        by_value(tally, r, &before, &after, width);
    }
    let (before, after) = around(Columns::of(&section), 1);
    for first in (0x80..=0xFF).chain([0x00, 0x01, 0x7F]) {
        every_two(tally, &[&before[..], &[first]].concat(), &after);
    }
}

/// The file before and after a piece.
fn around(mut columns: Columns, place: usize) -> (Vec<u8>, Vec<u8>) {
    let after = columns.pieces.split_off(place + 1);
    columns.pieces.truncate(place);
    let before = columns.bytes();
    columns.pieces = after;
    (before, columns.bytes())
}

fn behind_groups(tally: &mut Tally, before: &[u8], after: &[u8], width: usize) {
    for count in 0..=8 * width / 7 {
        for group in BEFORE {
            let before = [before, &vec![group; count]].concat();
            every_two(tally, &before, after);
            for last in 0..=255 {
                take_once(tally, &[&before[..], &[last], after].concat(), ROOM);
            }
            take_once(tally, &before, ROOM);
            if count == 0 {
                break;
            }
        }
    }
}

/// Every two bytes; of those whose first one ends a number a few alone.
fn every_two(tally: &mut Tally, before: &[u8], after: &[u8]) {
    let mut file = [before, &[0, 0], after].concat();
    let at = before.len();
    for first in 0..=255u8 {
        for second in 0..=255u8 {
            if first < 0x80 && second % 16 != 0 {
                continue;
            }
            (file[at], file[at + 1]) = (first, second);
            take_once(tally, &file, ROOM);
        }
    }
}

/// Values around every power of two, each in as few groups as it needs and in one more.
fn by_value(tally: &mut Tally, r: &mut Random, before: &[u8], after: &[u8], width: usize) {
    for bits in 0..64 {
        let power = 1u64 << bits;
        for value in [power - 1, power, power + 1, power | r.u64() % power] {
            for more in 0..2 {
                let number = groups(value, more);
                take_once(tally, &[before, &number, after].concat(), ROOM);
            }
        }
    }
    for value in [u64::MAX, u64::MAX - 1, u64::MAX >> (64 - 8 * width)] {
        take_once(tally, &[before, &groups(value, 0), after].concat(), ROOM);
    }
}

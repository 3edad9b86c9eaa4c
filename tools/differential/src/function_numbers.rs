//! Functions by number: those of the Rust's vector, 62 past its end, and the file's own refusal where it has one.

use crate::block_compare::{OLD, OLD_BYTE, lent};
use crate::block_numbers::{NOT_THERE, past};
use crate::function_binding;
use crate::function_compare::{Rooms, what};
use crate::tally::Tally;
use answers::Answer;
use answers::functions::File;
use falgnust::calls::BlockTables;
use inputs::cases::FileCase;
use port::functions::function_number;

/// In a file with more functions than this a few are read, since each call decodes the file anew.
const MOST: usize = 10;

const READER: &str = "function by number";

pub fn compare(tally: &mut Tally, case: &FileCase, rust: &Answer<File>, rooms: Rooms) {
    let count = rust.as_ref().map_or(0, |file| file.functions.len());
    let numbers: Vec<usize> = match count {
        0..=MOST => past(count).collect(),
        _ => vec![0, count / 2, count - 1, count, usize::MAX],
    };
    for number in numbers {
        one(tally, case, rust, rooms, number);
        function_binding::by_number(tally, case, rust, number);
    }
}

/// What the reader answers, and the four tables after it: as after the decoder, or zeros where it refuses.
fn one(tally: &mut Tally, case: &FileCase, rust: &Answer<File>, rooms: Rooms, number: usize) {
    let [mut functions, mut strings, mut paths] =
        [rooms[0], rooms[1], rooms[3]].map(|room| vec![OLD; room]);
    let mut families = vec![OLD_BYTE; rooms[4]];
    let tables = BlockTables {
        strings: &mut strings,
        paths: &mut paths,
        families: &mut families,
    };
    let port = function_number(
        &case.file,
        case.cursor,
        case.revision,
        number,
        &mut functions,
        tables,
    );
    let expected = match rust {
        Ok(file) => file.functions.get(number).map(|f| f.head).ok_or(NOT_THERE),
        Err(refusal) => Err(*refusal),
    };
    let starts: Vec<u64> = match (rust, &expected) {
        (Ok(file), Ok(_)) => file.functions.iter().map(|f| f.start as u64).collect(),
        _ => Vec::new(),
    };
    let block = match (rust, &expected) {
        (Ok(file), Ok(_)) => file.functions.last().map(|f| &f.block),
        _ => None,
    };
    let expected = (
        expected,
        lent(&starts, rooms[0]),
        lent(block.map_or(&[], |b| &b.string_starts), rooms[1]),
        lent(block.map_or(&[], |b| &b.path_starts), rooms[3]),
        lent(block.map_or(&[], |b| &b.families), rooms[4]),
    );
    let refused = expected
        .0
        .as_ref()
        .err()
        .map_or(0, |refusal| refusal.number);
    tally.input((refused, READER));
    tally.same(
        &expected,
        &(port, functions, strings, paths, families),
        || format!("{READER} {number}, {}", what(case)),
    );
}

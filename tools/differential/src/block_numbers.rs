//! The records of a block by number: those of the Rust's vectors, 62 past their end, and the block's own refusal where it has one.

use crate::block_binding_numbers;
use crate::block_compare::{OLD, OLD_BYTE, Rooms, lent, what};
use crate::tally::Tally;
use answers::Answer;
use answers::block::Block;
use answers::refusal::{Kind, Refusal};
use inputs::cases::BlockCase;
use port::number::Lent;
use std::fmt::Debug;

/// A block with more records than this is left out, since each reader decodes the block anew.
const MOST: usize = 40;

pub const NOT_THERE: Refusal = Refusal {
    kind: Kind::Added,
    number: 62,
    offset: 0,
};

/// A block, the Rust's answer, and room for its strings, paths and families.
struct Read<'a> {
    case: &'a BlockCase,
    rust: &'a Answer<Block>,
    rooms: [usize; 3],
}

pub fn compare(tally: &mut Tally, case: &BlockCase, rust: &Answer<Block>, rooms: Rooms) {
    match rust {
        Ok(block) if records(block) <= MOST => {
            block_binding_numbers::compare(tally, case, rust);
            let rooms = [
                block.strings.len() + 1,
                block.paths.len() + 1,
                block.families.len() + 1,
            ];
            numbers(tally, &Read { case, rust, rooms }, block);
        }
        Ok(_) => (),
        Err(refusal) => {
            block_binding_numbers::compare(tally, case, rust);
            let rooms = [rooms[0], rooms[2], rooms[3]];
            let read = Read { case, rust, rooms };
            read.check(
                tally,
                "by number in a refused block",
                Err(*refusal),
                |lent| lent.component(0, 0),
            );
        }
    }
}

fn records(block: &Block) -> usize {
    let components: usize = block.paths.iter().map(|path| path.components.len()).sum();
    block.strings.len() + block.symbols.len() + block.paths.len() + components
}

fn numbers(tally: &mut Tally, read: &Read, block: &Block) {
    for number in past(block.strings.len()) {
        let text = block.strings.get(number);
        let expected = text.map(|s| (s.as_bytes().to_vec(), s.chars().count()));
        read.check(
            tally,
            "string by number",
            expected.ok_or(NOT_THERE),
            |lent| {
                let span = lent.string(number)?;
                Ok((
                    lent.code[span.start..span.start + span.len].to_vec(),
                    span.chars,
                ))
            },
        );
    }
    for number in past(block.symbols.len()) {
        let expected = block.symbols.get(number).copied();
        read.check(
            tally,
            "symbol by number",
            expected.ok_or(NOT_THERE),
            |lent| Ok(lent.symbol(number)?.0),
        );
    }
    for number in past(block.paths.len()) {
        let path = block.paths.get(number);
        let expected = path.map(|p| (p.event, p.root, p.components.len()));
        read.check(tally, "path by number", expected.ok_or(NOT_THERE), |lent| {
            let head = lent.path(number)?;
            Ok((head.event, head.root, head.count as usize))
        });
        for place in past(path.map_or(0, |p| p.components.len())) {
            let expected = path.and_then(|p| p.components.get(place)).copied();
            read.check(
                tally,
                "component by number",
                expected.ok_or(NOT_THERE),
                |lent| Ok(lent.component(number, place)?.0),
            );
        }
    }
}

/// The numbers of a table, and two that it does not have.
pub fn past(count: usize) -> impl Iterator<Item = usize> {
    (0..=count).chain([usize::MAX])
}

impl Read<'_> {
    /// What a reader answers, and the tables after it: starts and families, or zeros where it refuses.
    fn check<T: PartialEq + Debug>(
        &self,
        tally: &mut Tally,
        reader: &'static str,
        expected: Answer<T>,
        read: impl FnOnce(&mut Lent) -> Answer<T>,
    ) {
        let (mut strings, mut paths) = (vec![OLD; self.rooms[0]], vec![OLD; self.rooms[1]]);
        let mut families = vec![OLD_BYTE; self.rooms[2]];
        let answer = read(&mut Lent {
            base_offset: self.case.base,
            code: &self.case.code,
            header_rev: self.case.revision,
            strings: &mut strings,
            paths: &mut paths,
            families: &mut families,
        });
        let number = expected.as_ref().err().map_or(0, |refusal| refusal.number);
        let starts = match (self.rust, &expected) {
            (Ok(b), Ok(_)) => (&b.string_starts[..], &b.path_starts[..], &b.families[..]),
            _ => (&[][..], &[][..], &[][..]),
        };
        let expected = (
            expected,
            lent(starts.0, self.rooms[0]),
            lent(starts.1, self.rooms[1]),
            lent(starts.2, self.rooms[2]),
        );
        tally.input((number, reader));
        tally.same(&expected, &(answer, strings, paths, families), || {
            format!("{reader}, {}", what(self.case))
        });
    }
}

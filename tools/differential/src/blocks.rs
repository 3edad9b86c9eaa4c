//! Blocks: all short ones, every cut and byte change of small ones at each revision, faults one and two at once, limits, and large ones.

use crate::block_compare;
use crate::tally::{LEAST, Outcome, Tally};
use inputs::block::{self, Block, REVISIONS};
use inputs::block_conditions::{REACHABLE, SIGNATURES, condition};
use inputs::cases::{self, BASES, BlockCase};
use inputs::random::Random;
use inputs::text::{ILL_FORMED, Text};

/// How many more inputs are looked at for conditions that were met too seldom, for each one of the count.
const TRIES: usize = 20;

pub fn run(r: &mut Random, count: usize) -> Tally {
    let mut tally = Tally::of("blocks", &REACHABLE).counting(&SIGNATURES);
    exhaustive(&mut tally);
    strings(&mut tally);
    paths(&mut tally);
    for revision in REVISIONS {
        let small = block::each_form(r, revision);
        cuts(&mut tally, &small);
        byte_changes(&mut tally, &small);
    }
    large(&mut tally, r);
    for _ in 0..LEAST {
        signed(&mut tally, r);
    }
    for _ in 0..count {
        let case = cases::block(r);
        block_compare::compare(&mut tally, &case);
    }
    for _ in 0..count / 2000 {
        let case = cases::large_block(r);
        block_compare::compare(&mut tally, &case);
    }
    seldom(&mut tally, r, count);
    tally
}

/// More of the conditions that were met too seldom.
fn seldom(tally: &mut Tally, r: &mut Random, count: usize) {
    for _ in 0..TRIES * count {
        if tally.too_few().is_empty() {
            return;
        }
        let case = cases::block(r);
        if tally.lacks(outcome(&case)) {
            block_compare::compare(tally, &case);
        }
        tally.progress();
    }
}

fn outcome(case: &BlockCase) -> Outcome {
    match oracle::block::block(&case.code, case.base, case.revision) {
        Ok(_) => (0, ""),
        Err(refusal) => (refusal.number, condition(&case.code, case.base, &refusal)),
    }
}

/// Every block of up to 2 bytes; every string of 1 byte; every first two bytes of a path, with what they need after them;
/// every family.
fn exhaustive(tally: &mut Tally) {
    compare(tally, &[], 1000, 22);
    for a in 0..=255 {
        compare(tally, &[a], 1000, 22);
        compare(tally, &[1, 0, 1, 0, a], 1000, 22);
        for b in 0..=255 {
            compare(tally, &[a, b], 1000, 22);
            let mut path = b"\0\0OWN0\x01\0".to_vec();
            path.extend([a, b]);
            path.resize(path.len() + 10, 0);
            for revision in [19, 20, 21, 22] {
                compare(tally, &path, 1000, revision);
            }
            compare(tally, &signature(a, b), 1000, 20);
        }
    }
}

/// One string of up to 44 bytes, with a character or with bytes that are none at each place, so that it is tested on either side of the 24 that an
/// automaton passes; and such a string cut.
fn strings(tally: &mut Tally) {
    let characters = [
        "\u{7f}",
        "\u{e9}",
        "\u{800}",
        "\u{d7ff}",
        "\u{e000}",
        "\u{10000}",
        "\u{10ffff}",
    ];
    for piece in characters.map(str::as_bytes).into_iter().chain(ILL_FORMED) {
        for letters in 0..=40 {
            for at in 0..=letters {
                let mut string = vec![b'x'; letters];
                string.splice(at..at, piece.iter().copied());
                let mut block = vec![1, 0];
                Text::new(&string).write(&mut block);
                compare(tally, &block, 1000, 19);
                compare(tally, &block[..block.len() - 1], 1000, 19);
            }
        }
    }
}

/// One path of up to 12 components, or of 64 or 80, of one kind or of all, with a component of each other kind or of none at each place, whole and cut
/// there.
fn paths(tally: &mut Tally) {
    for count in (0..=12).chain([64, 80]) {
        for kinds in [&[1][..], &[0, 1, 2, 3, 3]] {
            for at in 0..=count {
                for other in 0..=4 {
                    let mut block = b"\0\0OWN0\x01\0\0\0\x09\0\0\0".to_vec();
                    block.extend((count as u16).to_le_bytes());
                    let mut cut = block.len();
                    for i in 0..count {
                        let kind = if i == at {
                            other
                        } else {
                            kinds[i % kinds.len()]
                        };
                        block.push(kind);
                        block.extend(vec![7; [2, 4, 6, 4, 0][kind as usize]]);
                        if i < at {
                            cut = block.len();
                        }
                    }
                    block.extend(b"SIG0\0\0");
                    compare(tally, &block, 1000, 22);
                    compare(tally, &block[..cut + 1], 1000, 22);
                }
            }
        }
    }
}

/// A block whose first family and the byte after it are these.
fn signature(first: u8, second: u8) -> Vec<u8> {
    let mut block = b"\0\0OWN0\0\0SIG0\x01\0".to_vec();
    block.extend([first, second]);
    block
}

/// Small blocks with a signature of each value that is counted.
fn signed(tally: &mut Tally, r: &mut Random) {
    for count in 4095..=4097 {
        let families = (0..count).map(|_| r.within(1, 15) as u8).collect();
        with_families(tally, r, families);
    }
    for family in [0, 1, 15, 16, 255] {
        let mut families = vec![7; r.below(3)];
        families.insert(r.below(families.len() + 1), family);
        with_families(tally, r, families);
    }
    let mut unread = block::small_at(r, 19);
    unread.more = b"SIG0\x01\0\x07".to_vec();
    compare(tally, &unread.bytes(), 1000, 19);
}

fn with_families(tally: &mut Tally, r: &mut Random, families: Vec<u8>) {
    let revision = r.pick(&[20, 21, 22]);
    let mut block = block::small_at(r, revision);
    if let Some(signature) = &mut block.signature {
        signature.items = families;
    }
    compare(tally, &block.bytes(), 1000, revision);
}

fn compare(tally: &mut Tally, code: &[u8], base: usize, revision: u16) {
    let code = code.to_vec();
    block_compare::compare(
        tally,
        &BlockCase {
            code,
            base,
            revision,
        },
    );
}

fn cuts(tally: &mut Tally, block: &Block) {
    let bytes = block.bytes();
    for end in 0..=bytes.len() {
        for base in BASES {
            compare(tally, &bytes[..end], base, block.revision);
        }
    }
}

/// Every byte with every other value, at its own revision and at the others.
fn byte_changes(tally: &mut Tally, block: &Block) {
    let bytes = block.bytes();
    let mut changed = bytes.clone();
    for at in 0..bytes.len() {
        for change in 0..=255 {
            changed[at] = bytes[at] ^ change;
            compare(tally, &changed, 1000, block.revision);
        }
        for revision in REVISIONS {
            changed[at] = bytes[at] ^ 1;
            compare(tally, &changed, usize::MAX - at, revision);
        }
        changed[at] = bytes[at];
    }
}

/// Limits at one below, at and one above, and the largest tables.
fn large(tally: &mut Tally, r: &mut Random) {
    for strings in 255..=257 {
        let block = block::large(r, 22, [strings, 3, 3], 3);
        compare(tally, &block.bytes(), 0, 22);
    }
    for symbols in 8191..=8193 {
        let block = block::large(r, 22, [3, symbols, 3], 3);
        compare(tally, &block.bytes(), 0, 22);
    }
    for length in 1023..=1025 {
        let mut block = block::large(r, 22, [3, 3, 3], 3);
        block.strings[1] = Text::new(&vec![b'x'; length]);
        compare(tally, &block.bytes(), 0, 22);
    }
    for families in 4095..=4097 {
        let mut block = block::large(r, 22, [3, 3, 3], 3);
        if let Some(signature) = &mut block.signature {
            signature.items = vec![15; families];
        }
        compare(tally, &block.bytes(), 0, 22);
    }
    for revision in REVISIONS {
        let paths = block::large(r, revision, [256, 8192, 65_535], 1);
        compare(tally, &paths.bytes(), 7, revision);
        let components = block::large(r, revision, [0, 0, 2], 65_535);
        compare(tally, &components.bytes(), 7, revision);
    }
}

//! What a fuzzed input means: two bytes that choose, then the file or the block.
//!
//! The first byte, by what is left of it when it is divided by 9: 0 a section in a file, 1 a payload, whose tag and length are put before it, 2 a
//! block, 3 a file of functions, 4 a table of rules, the length of which stands before it in 2 bytes, and a payload, 5 two payloads to compare, the
//! length of the first before it in 2 bytes, 6 a column file, 7 a column file from its schema on, before which the tag and the payload length of its
//! section are put, 8 the words of a register, their length before them in 2 bytes, or none for an empty one, and claims and releases in it. The
//! second: in its low two bits a cursor or a base (0; 1; 1,000; 20 below 2^64), and above them a revision.
//!
//! A claim is an owner, a source set and a base with a revision as in the second byte, of a byte each, and the code of a function, its length before
//! it in 2 bytes. Without code it is a release.

use differential::compare_call::Pair;
use inputs::block::REVISIONS;
use inputs::cases::{AS_IT_IS, BlockCase, FileCase, Form, SectionCase};
use inputs::locks::{self, Step};
use inputs::random::Random;
use inputs::wide::wide;
use inputs::{compared, ruled};

pub enum Case {
    Section(SectionCase),
    Block(BlockCase),
    Functions(FileCase),
    /// A table and a section.
    Ruled(Vec<u8>, SectionCase),
    /// Two sections.
    Compared(Pair),
    Columns(Vec<u8>),
    /// The words of a register, and what is done with it.
    Locks(Vec<u64>, Vec<Step>),
}

const PLACES: [usize; 4] = [0, 1, 1000, usize::MAX - 20];

/// So many claims and releases are looked at.
const STEPS: usize = 24;

/// So many locks' words stand in a new register.
const HELD: usize = 20;

/// The case that some bytes stand for.
pub fn case(data: &[u8]) -> Option<Case> {
    let [kind, choice, rest @ ..] = data else {
        return None;
    };
    let (place, revision) = chosen(*choice);
    match kind % 9 {
        0 => Some(Case::Section(SectionCase {
            file: rest.to_vec(),
            cursor: place,
        })),
        1 => Some(Case::Section(framed(rest, place.min(1))?)),
        2 => Some(Case::Block(BlockCase {
            code: rest.to_vec(),
            base: place,
            revision,
        })),
        3 => Some(Case::Functions(FileCase {
            file: rest.to_vec(),
            cursor: place,
            revision,
        })),
        4 => {
            let (table, payload) = two(rest)?;
            Some(Case::Ruled(table.to_vec(), framed(payload, place.min(1))?))
        }
        5 => {
            let (first, second) = two(rest)?;
            let pair = Pair::new(framed(first, 0)?, framed(second, place.min(1))?);
            Some(Case::Compared(pair))
        }
        6 => Some(Case::Columns(rest.to_vec())),
        7 => Some(Case::Columns(with_length(rest))),
        _ => {
            let (words, steps) = two(rest)?;
            let (words, _) = words.as_chunks();
            let words = words.iter().map(|word| u64::from_le_bytes(*word));
            Some(Case::Locks(words.collect(), self::steps(steps)))
        }
    }
}

/// A cursor or a base, and a revision.
fn chosen(choice: u8) -> (usize, u16) {
    let place = PLACES[(choice & 3) as usize];
    let revision = REVISIONS[(choice >> 2) as usize % REVISIONS.len()];
    (place, revision)
}

/// Two parts, the length of the first before it.
fn two(rest: &[u8]) -> Option<(&[u8], &[u8])> {
    let (length, rest) = rest.split_first_chunk()?;
    rest.split_at_checked(u16::from_le_bytes(*length).into())
}

/// The claims and releases that are whole.
fn steps(mut rest: &[u8]) -> Vec<Step> {
    let next = || {
        let (step, after) = step(rest)?;
        rest = after;
        Some(step)
    };
    std::iter::from_fn(next).take(STEPS).collect()
}

/// The first, and the bytes after it. An owner's byte has a sign, so that 255 is the greatest owner.
fn step(bytes: &[u8]) -> Option<(Step, &[u8])> {
    let ([owner, set, choice], rest) = bytes.split_first_chunk()?;
    let (code, after) = two(rest)?;
    let owner = *owner as i8 as u32;
    let (base, revision) = chosen(*choice);
    let step = match code {
        [] => Step::Release(owner),
        _ => {
            let code = code.to_vec();
            let case = BlockCase {
                code,
                base,
                revision,
            };
            Step::Claim(owner, usize::from(*set), case)
        }
    };
    Some((step, after))
}

/// The source set of each byte: zeros, and for all but 0 the bit of that number.
pub fn sets() -> Vec<[u8; 32]> {
    let mut sets = vec![[0; 32]; 256];
    for (number, set) in sets.iter_mut().enumerate().skip(1) {
        set[number / 8] = 1 << (number % 8);
    }
    sets
}

/// Columns with the tag and the payload length of the section that they give; with any length where they give none.
fn with_length(rest: &[u8]) -> Vec<u8> {
    let mut file = [b"EVR0\0\0\0\0", rest].concat();
    if let Ok(section) = oracle::columns::take(&file) {
        let length = section.len() as u32 - 8;
        file[4..8].copy_from_slice(&length.to_le_bytes());
    }
    file
}

/// A payload with tag and length before it, at a cursor.
fn framed(payload: &[u8], cursor: usize) -> Option<SectionCase> {
    let length = u32::try_from(payload.len()).ok()?;
    let mut file = vec![b'.'; cursor];
    file.extend(b"EVR0");
    file.extend(length.to_le_bytes());
    file.extend(payload);
    Some(SectionCase { file, cursor })
}

/// The bytes that stand for a case, at cursor or base 0.
pub fn bytes(case: &Case) -> Vec<u8> {
    match case {
        Case::Section(SectionCase { file, cursor }) => match file.get(*cursor..) {
            Some([b'E', b'V', b'R', b'0', _, _, _, _, payload @ ..]) => joined([1, 0], payload),
            _ => joined([0, 0], file),
        },
        Case::Block(BlockCase { code, revision, .. }) => joined([2, choice(*revision)], code),
        Case::Functions(FileCase {
            file,
            cursor,
            revision,
        }) => joined(
            [3, choice(*revision)],
            file.get(*cursor..).unwrap_or_default(),
        ),
        Case::Ruled(table, SectionCase { file, cursor }) => {
            joined([4, 0], &of_two(table, payload(file, *cursor)))
        }
        Case::Compared(pair) => {
            let [first, second] = [pair.first(), pair.second()].map(|(file, at)| payload(file, at));
            joined([5, 0], &of_two(first, second))
        }
        Case::Columns(file) => match file.split_at_checked(8) {
            Some((_, rest)) if with_length(rest) == *file => joined([7, 0], rest),
            _ => joined([6, 0], file),
        },
        Case::Locks(words, steps) => {
            let words: Vec<u8> = words.iter().flat_map(|word| word.to_le_bytes()).collect();
            let steps: Vec<u8> = steps.iter().flat_map(of_step).collect();
            joined([8, 0], &of_two(&words, &steps))
        }
    }
}

/// Two parts, the length of the first before it.
fn of_two(first: &[u8], second: &[u8]) -> Vec<u8> {
    let length = (first.len() as u16).to_le_bytes();
    [&length[..], first, second].concat()
}

fn of_step(step: &Step) -> Vec<u8> {
    let (head, code) = match step {
        Step::Claim(owner, set, case) => {
            let head = [*owner as u8, *set as u8, choice(case.revision)];
            (head, &case.code[..])
        }
        Step::Release(owner) => ([*owner as u8, 0, 0], &[][..]),
    };
    [&head[..], &of_two(code, &[])].concat()
}

/// What stands behind a tag and a length.
fn payload(file: &[u8], cursor: usize) -> &[u8] {
    let section = file.get(cursor..).unwrap_or_default();
    section.get(8..).unwrap_or_default()
}

/// The second byte for a revision.
fn choice(revision: u16) -> u8 {
    let place = REVISIONS.iter().position(|known| *known == revision);
    (place.unwrap_or(0) as u8) << 2
}

fn joined(choice: [u8; 2], rest: &[u8]) -> Vec<u8> {
    [&choice[..], rest].concat()
}

/// A table, sometimes damaged, and a section by its rules.
pub fn by_rules(r: &mut Random) -> Case {
    let form: Form = if r.one_in(4) { wide } else { AS_IT_IS };
    let (mut table, case) = ruled::section_in(r, form);
    if r.one_in(3) {
        table = ruled::damaged(r, table);
    }
    Case::Ruled(table.bytes(), case)
}

/// Two sections of one pool of propositions.
pub fn of_one_pool(r: &mut Random) -> Case {
    let [first, second] = compared::pair(r).map(|section| SectionCase {
        file: section.bytes(),
        cursor: 0,
    });
    Case::Compared(Pair::new(first, second))
}

/// Claims and releases of three owners: from an empty register, beside a crowd, or in a register of any words.
pub fn of_owners(r: &mut Random) -> Case {
    let mut words = Vec::new();
    let mut steps = Vec::new();
    match r.below(3) {
        0 => (),
        1 => {
            let held = r.within(240, 256);
            let count = 256 - held + r.below(3);
            let (long, met) = (r.one_in(4), r.one_in(4));
            let beside = locks::beside_a_crowd(r, count, long, met);
            steps.push(Step::Claim(0, 0, locks::crowd(r, held)));
            steps.push(Step::Claim(1, 0, locks::case(r, &beside)));
        }
        _ => words.extend(&locks::any_words(r)[..1 + 24 * HELD]),
    }
    let sets = r.within(1, 4);
    let more = (0..r.within(1, 8)).map(|_| locks::step(r, [0, 1, u32::MAX], sets));
    steps.extend(more);
    Case::Locks(words, steps)
}

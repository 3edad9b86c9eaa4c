//! Claims and releases of a few owners over few roots and components, so that paths touch often.

use crate::block::{Block, Component, Path, REVISIONS, mode, signature, table};
use crate::cases::{self, BASES, BlockCase};
use crate::random::Random;

/// A component by its kind and its one or two numbers.
pub type Few = (u8, u32, u16);

/// The components of borrows and, without the variants, of writes: some two differ in each of kind, first and second number alone.
const BORROWED: [Few; 6] = [
    (0, 1, 0),
    (1, 1, 0),
    (1, 2, 0),
    (3, 1, 0),
    (2, 1, 0),
    (2, 1, 1),
];

/// Those that a revision has.
fn few(revision: u16, event: u8) -> &'static [Few] {
    match (revision >= 22, event) {
        (true, 0) => &BORROWED,
        (true, _) => &BORROWED[..4],
        (false, _) => &BORROWED[..3],
    }
}

fn component((kind, first, second): Few) -> Component {
    let first = first.to_le_bytes();
    let value = match kind {
        0 => first[..2].to_vec(),
        2 => [&first[..], &second.to_le_bytes()].concat(),
        _ => first.to_vec(),
    };
    Component { kind, value }
}

fn path(r: &mut Random, revision: u16, event: u8, root: u32, parts: &[Few]) -> Path {
    Path {
        event,
        mode: mode(r, revision, event),
        root,
        count: None,
        components: parts.iter().copied().map(component).collect(),
    }
}

/// So many components at random.
fn parts(r: &mut Random, revision: u16, event: u8, count: usize) -> Vec<Few> {
    let few = few(revision, event);
    (0..count).map(|_| r.pick(few)).collect()
}

/// A path of few roots and at most three components, or, now and then, of about as many as may be claimed.
fn any_path(r: &mut Random, revision: u16) -> Path {
    let event = r.one_in(3) as u8;
    let count = match r.below(25) {
        0 => r.within(15, 18),
        _ => r.below(4),
    };
    let (parts, root) = (parts(r, revision, event, count), r.below(3) as u32);
    path(r, revision, event, root, &parts)
}

/// A block with these paths.
pub fn block(r: &mut Random, revision: u16, paths: Vec<Path>) -> Block {
    Block {
        revision,
        count: None,
        strings: Vec::new(),
        debug: None,
        ownership: Some(table(*b"OWN0", paths)),
        signature: signature(r, revision),
        more: (0..r.below(3)).map(|_| r.byte()).collect(),
        cut: 0,
    }
}

pub fn case(r: &mut Random, block: &Block) -> BlockCase {
    let base = match r.one_in(2) {
        true => r.pick(&BASES),
        false => r.u64() as usize,
    };
    BlockCase {
        code: block.bytes(),
        base,
        revision: block.revision,
    }
}

/// All paths of revision 22 with root 0 or 1 and at most so many of these components.
pub fn all_paths(r: &mut Random, most: usize) -> Vec<Path> {
    let mut paths = Vec::new();
    for event in [0, 1] {
        for root in [0, 1] {
            let mut lists: Vec<Vec<Few>> = vec![vec![]];
            for length in 0..=most {
                let of_length = lists.iter().filter(|list| list.len() == length);
                let of_length: Vec<Vec<Few>> = of_length.cloned().collect();
                for list in of_length {
                    paths.push(path(r, 22, event, root, &list));
                    let longer = |next: &Few| [&list[..], &[*next]].concat();
                    lists.extend(few(22, event).iter().map(longer));
                }
            }
        }
    }
    paths
}

/// What an owner does; the number is that of a source set.
pub enum Step {
    Claim(u32, usize, BlockCase),
    Release(u32),
}

/// Owners of a sequence: the least and the greatest are ordinary ones.
pub fn owners(r: &mut Random) -> [u32; 3] {
    match r.one_in(2) {
        true => [0, 1, u32::MAX],
        false => [r.u32(), r.u32(), 1 << r.below(32)],
    }
}

/// Source sets of a sequence, some twice: one, two that differ in one bit at any place, or many.
pub fn sets(r: &mut Random) -> Vec<[u8; 32]> {
    let first = match r.one_in(2) {
        true => [0; 32],
        false => r.digest(),
    };
    let mut sets = vec![first; 4];
    match r.below(3) {
        0 => (),
        1 => sets[0][r.below(32)] ^= 1 << r.below(8),
        _ => sets
            .iter_mut()
            .for_each(|set| set[r.below(32)] ^= 1 << r.below(8)),
    }
    sets
}

pub fn step(r: &mut Random, owners: [u32; 3], sets: usize) -> Step {
    let (owner, set) = (r.pick(&owners), r.below(sets));
    match r.below(12) {
        0..3 => Step::Release(owner),
        3 => Step::Claim(owner, set, cases::block(r)),
        _ => Step::Claim(owner, set, any_claim(r)),
    }
}

/// A block of a few paths, or one without OWN0.
pub fn any_claim(r: &mut Random) -> BlockCase {
    let revision = r.pick(&REVISIONS);
    let paths = (0..r.below(4)).map(|_| any_path(r, revision)).collect();
    let mut block = block(r, revision, paths);
    if revision < 20 && r.one_in(8) {
        block.ownership = None;
    }
    case(r, &block)
}

/// What one owner holds, so that a second may be hindered, and be one too many: so many borrows of roots 0 and 1, and a write of root 2.
pub fn crowd(r: &mut Random, count: usize) -> BlockCase {
    let mut paths = vec![path(r, 22, 1, 2, &[(1, 1, 0)])];
    while paths.len() < count {
        let length = r.below(4);
        let (parts, root) = (parts(r, 22, 0, length), r.below(2) as u32);
        paths.push(path(r, 22, 0, root, &parts));
    }
    let block = block(r, 22, paths);
    case(r, &block)
}

/// A claim beside a crowd: so many paths, one of them above 16 components or not, one of them hindered or not.
pub fn beside_a_crowd(r: &mut Random, count: usize, long: bool, met: bool) -> Block {
    let mut paths = Vec::new();
    if long {
        let length = r.within(17, 20);
        let parts = parts(r, 22, 0, length);
        paths.push(path(r, 22, 0, 0, &parts));
    }
    if met {
        let parts: &[Few] = match r.one_in(2) {
            true => &[],
            false => &[(1, 1, 0), (3, 1, 0)],
        };
        paths.push(path(r, 22, 0, 2, parts));
    }
    while paths.len() < count {
        let length = r.below(3);
        let parts = parts(r, 22, 0, length);
        paths.push(path(r, 22, 0, 1, &parts));
    }
    for at in 1..paths.len() {
        let other = r.below(at + 1);
        paths.swap(at, other);
    }
    block(r, 22, paths)
}

/// Words that mean some register: of a few numbers or of any, with bits above those that are looked at, and any count.
pub fn any_words(r: &mut Random) -> Box<[u64; 6145]> {
    let high = |r: &mut Random, bits: u32| match r.one_in(3) {
        true => r.u64() << bits,
        false => 0,
    };
    let mut words = Box::new([0; 6145]);
    words[0] = match r.below(5) {
        0 => r.within(250, 260) as u64,
        1 => r.u64(),
        _ => r.below(20) as u64,
    };
    let any = r.one_in(6);
    for lock in words[1..].chunks_mut(24) {
        if any {
            lock.fill_with(|| r.u64());
            continue;
        }
        lock[0] = r.below(3) as u64 + high(r, 32);
        lock[1] = if r.one_in(3) { 1 << r.below(64) } else { 0 };
        lock[2] = r.below(3) as u64 + high(r, 32);
        lock[3] = match r.below(20) {
            0 => r.u64(),
            1 => r.within(14, 18) as u64,
            _ => r.below(4) as u64,
        };
        if r.one_in(4) {
            lock[r.within(4, 7)] = 1 << r.below(64);
        }
        for word in &mut lock[8..] {
            let (kind, first, second) = r.pick(&BORROWED);
            let second = if r.one_in(20) {
                r.below(3) as u16
            } else {
                second
            };
            *word = u64::from(kind) + (u64::from(first) << 2) + (u64::from(second) << 34);
            *word += high(r, 50);
        }
    }
    words
}

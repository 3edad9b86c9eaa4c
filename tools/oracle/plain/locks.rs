//! Locks with owners, which the Rust does not have, in plain lines from the words of document 02's Slips 2 and 10, over the Rust's paths; and what
//! the words of a register mean.

use answers::block::{Component, Event, Path};
use answers::locks::{Lock, Part, Source};

/// The lock that an owner takes on a path, under the source set of its claim. When a borrow begins and where a write is done makes no difference.
pub fn lock(owner: u32, source: &Source, path: &Path) -> Lock {
    Lock {
        owner,
        write: matches!(path.event, Event::Write(_)),
        root: path.root,
        source: *source,
        parts: path.components.iter().map(part).collect(),
    }
}

fn part(component: &Component) -> Part {
    let (kind, first, second) = match *component {
        Component::TupleIndex(index) => (0, index.into(), 0),
        Component::FieldSymbol(symbol) => (1, symbol, 0),
        Component::Variant { variant, index } => (2, variant, index),
        Component::SequenceIndex(index) => (3, index, 0),
    };
    Part {
        kind,
        first,
        second,
    }
}

/// Two paths touch when one is the beginning of the other, root and components compared; equal paths touch.
pub fn touch(a: &Lock, b: &Lock) -> bool {
    same_root(a, b) && (begins(&a.parts, &b.parts) || begins(&b.parts, &a.parts))
}

/// A lock's root is the same exactly where the symbol and the 32-byte source set are both the same.
fn same_root(a: &Lock, b: &Lock) -> bool {
    a.root == b.root && a.source == b.source
}

fn begins(short: &[Part], long: &[Part]) -> bool {
    let pairs = short.iter().zip(long);
    short.len() <= long.len() && pairs.clone().all(|(a, b)| same(a, b))
}

fn same(a: &Part, b: &Part) -> bool {
    a.kind == b.kind && a.first == b.first && a.second == b.second
}

/// Borrows of different owners may touch; a write may touch nothing of another owner. An owner never hinders itself.
pub fn hinders(held: &Lock, claimed: &Lock) -> bool {
    held.owner != claimed.owner && (held.write || claimed.write) && touch(held, claimed)
}

fn hindered(held: &[Lock], claimed: &Lock) -> bool {
    held.iter().any(|lock| hinders(lock, claimed))
}

/// Whether each of 66, 67 and 68 applies, the others left aside.
pub fn applies(held: &[Lock], claimed: &[Lock]) -> [bool; 3] {
    let long = claimed.iter().any(|lock| lock.parts.len() > 16);
    let met = claimed.iter().any(|lock| hindered(held, lock));
    let full = held.len() + claimed.len() > 256;
    [long, met, full]
}

/// An owner claims all paths of its function or none: the locks that it would take. Refused, in this order: 66, 67, 68. A refused claim changes no lock, an accepted one only
/// adds one for each of its paths.
pub fn claim(held: &mut Vec<Lock>, claimed: Vec<Lock>) -> Result<usize, u8> {
    let [long, met, full] = applies(held, &claimed);
    if long {
        return Err(66);
    }
    if met {
        return Err(67);
    }
    if full {
        return Err(68);
    }
    held.extend(claimed);
    Ok(held.len())
}

/// Release drops exactly what an owner holds.
pub fn release(held: &mut Vec<Lock>, owner: u32) -> usize {
    held.retain(|lock| lock.owner != owner);
    held.len()
}

/// No write touches a lock of another owner.
pub fn safe(held: &[Lock]) -> bool {
    !held.iter().any(|lock| hindered(held, lock))
}

/// The words of a register: how many locks are held, then 24 for each.
pub fn locks_in(words: &[u64]) -> Vec<Lock> {
    let held = words[0].min(256) as usize;
    words[1..].chunks(24).take(held).map(lock_in).collect()
}

/// A lock whose source set is forgotten: its root is the symbol alone, as it was before Slip 10.
pub fn forgotten(lock: &Lock) -> Lock {
    Lock {
        source: [0; 32],
        ..lock.clone()
    }
}

/// Owner, write, root, number of parts, four words of the source set, eight bytes each and the lowest first, sixteen parts.
fn lock_in(words: &[u64]) -> Lock {
    let parts = words[3].min(16) as usize;
    Lock {
        owner: words[0] as u32,
        write: words[1] != 0,
        root: words[2] as u32,
        source: bytes_in(&words[4..8]),
        parts: words[8..8 + parts].iter().map(part_in).collect(),
    }
}

fn bytes_in(words: &[u64]) -> Source {
    let mut source = [0; 32];
    for (bytes, word) in source.chunks_mut(8).zip(words) {
        bytes.copy_from_slice(&word.to_le_bytes());
    }
    source
}

/// From the lowest bits on: 2 of the kind, 32 of the first number, 16 of the second.
fn part_in(word: &u64) -> Part {
    Part {
        kind: (word & 3) as u8,
        first: (word >> 2) as u32,
        second: (word >> 34) as u16,
    }
}

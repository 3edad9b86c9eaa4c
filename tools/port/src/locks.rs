//! Locks.

use crate::refusal;
use answers::Answer;
use answers::locks::{Lock, Part, Source};
use falgnust::calls::{self, BlockTables};
use falgnust::raw;
use falgnust::semcode_decode::DecodedAccessPathComponent;

pub use falgnust::raw::Register;

/// An owner claims the paths of a block under a source set; the answer is how many locks are held.
#[inline]
pub fn claim(
    register: &mut Register,
    owner: u32,
    base_offset: usize,
    code: &[u8],
    header_rev: u16,
    source: &Source,
    lent: BlockTables,
) -> Answer<usize> {
    let c = calls::claim(register, owner, base_offset, code, header_rev, source, lent);
    if c.accepted {
        assert_eq!(c.refusal, raw::Refusal::default(), "zeros where accepted");
        return Ok(c.held);
    }
    assert_eq!(c.held, 0, "zero where refused");
    Err(refusal::answer(c.refusal))
}

/// A held lock by its number, with every part of it by its number.
pub fn lock(register: &Register, number: usize) -> Answer<Lock> {
    let l = calls::lock_number(register, number);
    if !l.accepted {
        return Err(refusal::answer(l.refusal));
    }
    let parts = (0..l.component_count).map(|part| self::part(register, number, part));
    Ok(Lock {
        owner: l.owner,
        write: l.write,
        root: l.root_symbol_id,
        source: l.source,
        parts: parts.collect::<Answer<_>>()?,
    })
}

pub fn part(register: &Register, number: usize, part: usize) -> Answer<Part> {
    let p = calls::lock_part(register, number, part);
    if !p.accepted {
        return Err(refusal::answer(p.refusal));
    }
    let raw::Parts {
        kind,
        first,
        second,
    } = p.component;
    Ok(Part {
        kind,
        first,
        second,
    })
}

/// A lock of the crate.
pub fn of_crate(lock: falgnust::locks::Lock) -> Lock {
    let part = |component: &DecodedAccessPathComponent| {
        let (kind, first, second) = match *component {
            DecodedAccessPathComponent::TupleIndex(index) => (0, u32::from(index), 0),
            DecodedAccessPathComponent::FieldSymbol(symbol) => (1, symbol, 0),
            DecodedAccessPathComponent::AdtPayload { variant, index } => (2, variant, index),
            DecodedAccessPathComponent::SequenceIndexStatic(index) => (3, index, 0),
        };
        Part {
            kind,
            first,
            second,
        }
    };
    Lock {
        owner: lock.owner,
        write: lock.write,
        root: lock.root_symbol_id,
        source: lock.source,
        parts: lock.components.iter().map(part).collect(),
    }
}

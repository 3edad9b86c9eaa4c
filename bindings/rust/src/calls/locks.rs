//! Locks.

use super::BlockTables;
use crate::raw::*;

/// An owner claims all paths of a block, or none, under a source set. `lent` takes the block's tables.
#[inline]
pub fn claim(
    register: &mut Register,
    owner: u32,
    base_offset: usize,
    code: &[u8],
    header_rev: u16,
    source: &[u8; 32],
    lent: BlockTables,
) -> Claim {
    call!(falgnust_claim(register, owner, base_offset, in code, header_rev, source, block lent))
}

/// Drops what an owner holds. The answer is how many locks are held afterwards.
#[inline]
pub fn release(register: &mut Register, owner: u32) -> usize {
    call!(falgnust_release(register, owner))
}

/// How many locks are held.
#[inline]
pub fn held(register: &Register) -> usize {
    call!(falgnust_held(register))
}

/// A lock by its number.
#[inline]
pub fn lock_number(register: &Register, number: usize) -> Lock {
    call!(falgnust_lock_number(register, number))
}

/// A component of a lock's path, both by number.
#[inline]
pub fn lock_part(register: &Register, number: usize, part: usize) -> LockPart {
    call!(falgnust_lock_part(register, number, part))
}

//! Locks: crates/falgnust/src/register.rt

use super::{Parts, Refusal};

/// The locks that are held: how many, and 24 words for each. Zeros are the empty register, and any words mean some register.
#[repr(C)]
#[derive(Debug, Clone, Copy, PartialEq, Eq)]
pub struct Register {
    /// For the functions below to read.
    pub words: [u64; 6145],
}

/// What a claim is answered.
#[repr(C)]
#[derive(Debug, Default, Clone, Copy, PartialEq, Eq)]
pub struct Claim {
    /// Whether all paths are held.
    pub accepted: bool,
    /// Why none is.
    pub refusal: Refusal,
    /// How many locks are held afterwards.
    pub held: usize,
}

/// A lock without the components of its path.
#[repr(C)]
#[derive(Debug, Default, Clone, Copy, PartialEq, Eq)]
pub struct Lock {
    /// Whether there is one.
    pub accepted: bool,
    /// Why not.
    pub refusal: Refusal,
    /// Whose it is.
    pub owner: u32,
    /// Whether it is a write.
    pub write: bool,
    /// Its path's root.
    pub root_symbol_id: u32,
    /// How many components its path has.
    pub component_count: usize,
    /// The source set that was brought with the claim.
    pub source: [u8; 32],
}

/// A component of a lock's path.
#[repr(C)]
#[derive(Debug, Default, Clone, Copy, PartialEq, Eq)]
pub struct LockPart {
    /// Whether there is one.
    pub accepted: bool,
    /// Why not.
    pub refusal: Refusal,
    /// What it holds.
    pub component: Parts,
}

unsafe extern "C" {
    /// An owner claims all paths of a block, or none, under a source set. It decodes the block first and fills the three tables; a refusal leaves
    /// zeros in them, and the register as it was.
    pub fn falgnust_claim(
        register: *mut Register,
        owner: u32,
        base_offset: usize,
        code: *const u8,
        code_len: usize,
        header_rev: u16,
        source: *const [u8; 32],
        strings: *mut u64,
        strings_len: usize,
        paths: *mut u64,
        paths_len: usize,
        families: *mut u8,
        families_len: usize,
    ) -> Claim;

    /// Drops what an owner holds. The answer is how many locks are held afterwards.
    pub fn falgnust_release(register: *mut Register, owner: u32) -> usize;
    /// How many locks are held.
    pub fn falgnust_held(register: *const Register) -> usize;
    /// A lock by its number; 62 where there is none.
    pub fn falgnust_lock_number(register: *const Register, number: usize) -> Lock;
    /// A component of a lock's path, both by number; 62 where there is none.
    pub fn falgnust_lock_part(register: *const Register, number: usize, part: usize) -> LockPart;
}

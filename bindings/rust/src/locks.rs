//! Locks with owners: which paths are borrowed and written by functions that have not finished.
//!
//! An owner claims all paths of a function or none, and brings the source set in which its symbols are numbered. Two paths touch when one is the
//! beginning of the other, root and components compared; roots are the same where symbol and source set are both the same.
//! Borrows of different owners may touch, a write may touch nothing of another owner, and an owner never hinders itself. At most
//! [`MAX_LOCKS`] are held.
//!
//! ```
//! use falgnust::locks::{ClaimError, Register};
//!
//! let borrow = b"\x00\x00OWN0\x01\x00\x00\x05\x00\x00\x00\x00\x00"; // of root 5, at revision 19
//! let write = b"\x00\x00OWN0\x01\x00\x01\x05\x00\x00\x00\x00\x00";
//!
//! let (ours, theirs) = (&[1; 32], &[2; 32]); // source sets
//!
//! let mut register = Register::new();
//! assert_eq!(register.claim(1, 0, borrow, 19, ours), Ok(1));
//! assert_eq!(register.claim(2, 0, borrow, 19, ours), Ok(2));
//! assert_eq!(register.claim(2, 0, write, 19, ours), Err(ClaimError::Held));
//! assert_eq!(register.claim(2, 0, write, 19, theirs), Ok(3));
//! assert_eq!(register.release(1), 2);
//! assert_eq!(register.claim(2, 0, write, 19, ours), Ok(3));
//! assert!(register.locks().iter().all(|lock| lock.owner == 2));
//! ```

use crate::calls;
use crate::messages;
use crate::raw;
use crate::read::{accepted, there};
use crate::semcode_decode::{Block, DecodeError, DecodedAccessPathComponent, of_parts};
use std::fmt;

/// The most locks that are held, over all owners.
pub const MAX_LOCKS: usize = 256;
/// The most components of a path that is claimed.
pub const MAX_COMPONENTS: usize = 16;

/// The locks that are held.
#[derive(Clone)]
pub struct Register(Box<raw::Register>);

/// A lock that is held.
#[derive(Debug, Clone, PartialEq, Eq)]
pub struct Lock {
    /// Whose it is.
    pub owner: u32,
    /// Whether it is a write, else a borrow.
    pub write: bool,
    /// Its path's root, in its source set.
    pub root_symbol_id: u32,
    /// The source set that was brought with the claim.
    pub source: [u8; 32],
    /// Its path's components.
    pub components: Vec<DecodedAccessPathComponent>,
}

/// Why nothing was claimed.
#[derive(Debug, Clone, PartialEq, Eq)]
pub enum ClaimError {
    /// The function's block is refused.
    Block(DecodeError),
    /// A path has more than 16 components: 66.
    TooLong,
    /// A path touches a lock of another owner, and either is a write: 67.
    Held,
    /// More than 256 locks would be held: 68.
    Full,
}

impl Register {
    /// One in which nothing is held.
    pub fn new() -> Self {
        Register(Box::new(raw::Register { words: [0; 6145] }))
    }

    /// An owner claims all paths of a function's block, which stands at `base_offset` in its file, under a source set, any 32 bytes, and gets a lock
    /// for each, also where it holds an equal one. The answer is how many locks are held then; after an error the register is as it was.
    pub fn claim(
        &mut self,
        owner: u32,
        base_offset: usize,
        code: &[u8],
        header_rev: u16,
        source: &[u8; 32],
    ) -> Result<usize, ClaimError> {
        let block = Block::new(base_offset, code, header_rev);
        let register = &mut *self.0;
        let answer = block.lend(|lent| {
            let lent = lent.starts;
            let answer = calls::claim(register, owner, base_offset, code, header_rev, source, lent);
            accepted(answer.accepted, answer.refusal)?;
            Ok(answer.held)
        });
        answer.map_err(|refusal| match refusal.number {
            66 => ClaimError::TooLong,
            67 => ClaimError::Held,
            68 => ClaimError::Full,
            _ => ClaimError::Block(block.error(refusal)),
        })
    }

    /// Drops exactly what an owner holds; the answer is how many locks are held then.
    pub fn release(&mut self, owner: u32) -> usize {
        calls::release(&mut self.0, owner)
    }

    /// How many locks are held.
    pub fn held(&self) -> usize {
        calls::held(&self.0)
    }

    /// The locks that are held, in the order in which they were claimed.
    pub fn locks(&self) -> Vec<Lock> {
        (0..self.held()).map(|number| self.lock(number)).collect()
    }

    fn lock(&self, number: usize) -> Lock {
        let lock = calls::lock_number(&self.0, number);
        there(accepted(lock.accepted, lock.refusal));
        let component = |part| {
            let part = calls::lock_part(&self.0, number, part);
            there(accepted(part.accepted, part.refusal));
            of_parts(part.component)
        };
        Lock {
            owner: lock.owner,
            write: lock.write,
            root_symbol_id: lock.root_symbol_id,
            source: lock.source,
            components: (0..lock.component_count).map(component).collect(),
        }
    }
}

impl Default for Register {
    fn default() -> Self {
        Register::new()
    }
}

impl fmt::Debug for Register {
    fn fmt(&self, f: &mut fmt::Formatter) -> fmt::Result {
        f.debug_list().entries(self.locks()).finish()
    }
}

impl ClaimError {
    /// The number of document 01 or 02.
    pub fn number(&self) -> Option<u8> {
        match self {
            ClaimError::Block(error) => error.number(),
            ClaimError::TooLong => Some(66),
            ClaimError::Held => Some(67),
            ClaimError::Full => Some(68),
        }
    }
}

impl fmt::Display for ClaimError {
    fn fmt(&self, f: &mut fmt::Formatter) -> fmt::Result {
        match (self, self.number()) {
            (ClaimError::Block(error), _) => error.fmt(f),
            (_, number) => f.write_str(messages::message(number.unwrap_or(0))),
        }
    }
}

impl std::error::Error for ClaimError {}

//! What is asked of a section by number. Each function decodes the section at `cursor` anew, and answers none where the section does not
//! have the number (document 01's 62).

use super::records;
use super::tables::lend;
use super::{Evr0Error, HEADER, Proof, Proposition, Witness};
use crate::calls;
use crate::read::Read;

/// Where the way down from a proof leads.
#[derive(Debug, Clone, Copy, PartialEq, Eq)]
pub enum WayDown {
    /// To a witness, by so many moves.
    Witness {
        /// Its number.
        witness: u32,
        /// The moves made.
        moves: u64,
    },
    /// To a proof that has a parent, by as many moves as the limit allows.
    Spent {
        /// Its number.
        proof: u32,
    },
}

/// A proposition by its number.
pub fn proposition_number(
    bytes: &[u8],
    cursor: usize,
    number: u32,
) -> Result<Option<Proposition>, Evr0Error> {
    answer(lend(bytes, |lent| {
        let read = calls::proposition_number(bytes, cursor, number, lent);
        records::proposition(payload(bytes, cursor), read)
    }))
}

/// A proof by its number.
pub fn proof_number(bytes: &[u8], cursor: usize, number: u32) -> Result<Option<Proof>, Evr0Error> {
    answer(lend(bytes, |lent| {
        let read = calls::proof_number(bytes, cursor, number, lent);
        records::proof(payload(bytes, cursor), read)
    }))
}

/// A witness by its number.
pub fn witness_number(
    bytes: &[u8],
    cursor: usize,
    number: u32,
) -> Result<Option<Witness>, Evr0Error> {
    answer(lend(bytes, |lent| {
        let read = calls::witness_number(bytes, cursor, number, lent);
        records::witness(read)
    }))
}

/// The proof's number in a parent cell, by the cell's number.
pub fn parent_number(bytes: &[u8], cursor: usize, number: u32) -> Result<Option<u32>, Evr0Error> {
    answer(lend(bytes, |lent| {
        let read = calls::parent_number(bytes, cursor, number, lent);
        records::parent(read)
    }))
}

/// The way down from a proof: always the first parent, with at most `limit` moves.
///
/// ```
/// use falgnust::evr0::way_down;
///
/// assert_eq!(way_down(b"", 0, 0, 255).unwrap_err().number(), Some(1));
/// ```
pub fn way_down(
    bytes: &[u8],
    cursor: usize,
    from: u32,
    limit: u64,
) -> Result<Option<WayDown>, Evr0Error> {
    answer(lend(bytes, |lent| {
        let read = calls::way_down(bytes, cursor, from, limit, lent);
        records::way_down(read)
    }))
}

/// Whether a proposition is authorised: some proof of it has operation 1 and [mark](super::marks) 1, so that every walk down from that proof ends
/// at a positive witness. An operation on a negative witness, or on a join of both, authorises nothing.
pub fn authorised(
    bytes: &[u8],
    cursor: usize,
    proposition: u32,
) -> Result<Option<bool>, Evr0Error> {
    answer(lend(bytes, |lent| {
        let mut marks = vec![0; lent.depths.len()];
        let read = calls::authorised(bytes, cursor, proposition, lent, &mut marks);
        records::authorised(read)
    }))
}

pub(super) fn answer<T>(read: Read<T>) -> Result<Option<T>, Evr0Error> {
    match read {
        Ok(value) => Ok(Some(value)),
        Err(refusal) if refusal.number == 62 => Ok(None),
        Err(refusal) => Err(Evr0Error::new(refusal)),
    }
}

/// The bytes behind the section's length, in which the payload's places are; none in a file that ends before.
pub(super) fn payload(bytes: &[u8], cursor: usize) -> &[u8] {
    let start = cursor.saturating_add(HEADER);
    bytes.get(start..).unwrap_or_default()
}

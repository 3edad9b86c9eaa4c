//! The records of a section, each at a place of its payload.

use super::Refusal;

/// A text in a record, as places in the payload.
#[repr(C)]
#[derive(Debug, Default, Clone, Copy, PartialEq, Eq)]
pub struct Span {
    /// Where its bytes start.
    pub start: usize,
    /// How many bytes it has.
    pub len: usize,
    /// How many characters it has.
    pub chars: usize,
    /// The place after it.
    pub next: usize,
}

/// A proposition of a section.
#[repr(C)]
#[derive(Debug, Default, Clone, Copy, PartialEq, Eq)]
pub struct Proposition {
    /// Whether there is one.
    pub accepted: bool,
    /// Why not.
    pub refusal: Refusal,
    /// Where the record starts in the payload.
    pub start: usize,
    /// Its kind.
    pub kind: Span,
    /// Its owner.
    pub ast_owner_id: u32,
    /// Its scope.
    pub semantic_scope_id: u32,
    /// Its type.
    pub type_obligation_id: u32,
}

/// A proof of a section.
#[repr(C)]
#[derive(Debug, Default, Clone, Copy, PartialEq, Eq)]
pub struct Proof {
    /// Whether there is one.
    pub accepted: bool,
    /// Why not.
    pub refusal: Refusal,
    /// Where the record starts in the payload.
    pub start: usize,
    /// Its number.
    pub proof_id: u32,
    /// Its proposition.
    pub proposition_index: u32,
    /// Its rule's name.
    pub rule_id: Span,
    /// Its authority.
    pub authority_context: u32,
    /// The first witness that it owns.
    pub witness_first: u32,
    /// How many witnesses it owns.
    pub witness_count: u32,
    /// The first parent cell that it owns.
    pub parent_first: u32,
    /// How many parent cells it owns.
    pub parent_count: u32,
    /// 1 where its operation is authorised.
    pub authorized_operation: u8,
}

/// A witness of a section.
#[repr(C)]
#[derive(Debug, Default, Clone, Copy, PartialEq, Eq)]
pub struct Witness {
    /// Whether there is one.
    pub accepted: bool,
    /// Why not.
    pub refusal: Refusal,
    /// Where the record starts in the payload.
    pub start: usize,
    /// The first digest.
    pub file_digest: [u8; 32],
    /// The second digest.
    pub origin_digest: [u8; 32],
    /// Its number.
    pub witness_id: u32,
    /// Its proposition.
    pub proposition_index: u32,
    /// 1 positive, 0 negative.
    pub polarity: u8,
    /// Where its span starts; 64 bits under either schema.
    pub source_start: u64,
    /// Where its span ends.
    pub source_end: u64,
}

/// A parent cell of a section.
#[repr(C)]
#[derive(Debug, Default, Clone, Copy, PartialEq, Eq)]
pub struct Parent {
    /// Whether there is one.
    pub accepted: bool,
    /// Why not.
    pub refusal: Refusal,
    /// Where the cell stands in the payload.
    pub start: usize,
    /// The proof's number that it holds.
    pub proof_id: u32,
}

unsafe extern "C" {
    /// The proposition at a place of an accepted section's payload, as its start in the table is.
    pub fn falgnust_read_proposition(
        payload: *const u8,
        payload_len: usize,
        at: usize,
    ) -> Proposition;
    /// The proof at a place of the payload, as its start in the table is.
    pub fn falgnust_read_proof(payload: *const u8, payload_len: usize, at: usize) -> Proof;
    /// The witness at a place of the payload, as `falgnust_witness_place` gives it. Under schema 2 its span's start and end take 8 bytes each,
    /// under any other number 4.
    pub fn falgnust_read_witness(
        payload: *const u8,
        payload_len: usize,
        schema: u16,
        at: usize,
    ) -> Witness;
    /// The parent cell at a place of the payload, as `falgnust_parent_place` gives it.
    pub fn falgnust_read_parent(payload: *const u8, payload_len: usize, at: usize) -> Parent;
    /// Where a witness stands in a payload of `len` bytes with so many witnesses, of 92 bytes under schema 2 and else of 84, and parents.
    pub fn falgnust_witness_place(
        len: usize,
        schema: u16,
        witnesses: usize,
        parents: usize,
        number: u32,
    ) -> usize;
    /// Where a parent cell stands in a payload of `len` bytes with so many parents.
    pub fn falgnust_parent_place(len: usize, parents: usize, number: u32) -> usize;
}

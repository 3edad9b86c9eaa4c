//! Depth by rounds: crates/falgnust/src/by_rounds.rt

use super::Refusal;

/// How many proofs are marked.
#[repr(C)]
#[derive(Debug, Default, Clone, Copy, PartialEq, Eq)]
pub struct Rounds {
    /// Whether each proof is marked.
    pub accepted: bool,
    /// Why not.
    pub refusal: Refusal,
    /// How many proofs there are.
    pub proofs: usize,
    /// The place after the section; the cursor that was brought where it is refused.
    pub cursor: usize,
}

unsafe extern "C" {
    /// The depths of the section at a cursor by rounds: in each round, counted from 1, the proofs are marked all of whose parents were marked in
    /// earlier rounds. The start of each proposition and of each proof in the payload, and the round of each proof go to the three tables.
    pub fn falgnust_depth_by_rounds(
        bytes: *const u8,
        bytes_len: usize,
        cursor: usize,
        propositions: *mut u64,
        propositions_len: usize,
        proofs: *mut u64,
        proofs_len: usize,
        rounds: *mut u64,
        rounds_len: usize,
    ) -> Rounds;

    /// The same by the rules of a table, whose refusals come first.
    pub fn falgnust_depth_by_rounds_by_rules(
        rules: *const u8,
        rules_len: usize,
        bytes: *const u8,
        bytes_len: usize,
        cursor: usize,
        propositions: *mut u64,
        propositions_len: usize,
        proofs: *mut u64,
        proofs_len: usize,
        rounds: *mut u64,
        rounds_len: usize,
    ) -> Rounds;
}

//! Tables of rules, and sections by the rules of one: crates/falgnust/src/rules.rt

use super::{Authorised, Parent, Proof, Proposition, Refusal, Section, WayDown, Witness};

/// Whether bytes are a table of rules.
#[repr(C)]
#[derive(Debug, Default, Clone, Copy, PartialEq, Eq)]
pub struct Rules {
    /// Whether they are one.
    pub accepted: bool,
    /// Why not: 69 or 70, at 0.
    pub refusal: Refusal,
    /// How many rules it has.
    pub count: usize,
}

unsafe extern "C" {
    /// Loads a table of rules: how many there are.
    pub fn falgnust_load_rules(rules: *const u8, rules_len: usize) -> Rules;

    /// The section at a cursor by the rules of a table, with the marks.
    pub fn falgnust_decode_evr0_section_by_rules(
        rules: *const u8,
        rules_len: usize,
        bytes: *const u8,
        bytes_len: usize,
        cursor: usize,
        propositions: *mut u64,
        propositions_len: usize,
        proofs: *mut u64,
        proofs_len: usize,
        depths: *mut u64,
        depths_len: usize,
        marks: *mut u8,
        marks_len: usize,
    ) -> Section;

    /// The same without the marks.
    pub fn falgnust_decode_evr0_unmarked_by_rules(
        rules: *const u8,
        rules_len: usize,
        bytes: *const u8,
        bytes_len: usize,
        cursor: usize,
        propositions: *mut u64,
        propositions_len: usize,
        proofs: *mut u64,
        proofs_len: usize,
        depths: *mut u64,
        depths_len: usize,
    ) -> Section;

    /// The way down from a proof by the rules of a table.
    pub fn falgnust_way_down_by_rules(
        rules: *const u8,
        rules_len: usize,
        bytes: *const u8,
        bytes_len: usize,
        cursor: usize,
        from: u32,
        limit: u64,
        propositions: *mut u64,
        propositions_len: usize,
        proofs: *mut u64,
        proofs_len: usize,
        depths: *mut u64,
        depths_len: usize,
    ) -> WayDown;

    /// Whether a proposition is authorised by the rules of a table.
    pub fn falgnust_authorised_by_rules(
        rules: *const u8,
        rules_len: usize,
        bytes: *const u8,
        bytes_len: usize,
        cursor: usize,
        proposition: u32,
        propositions: *mut u64,
        propositions_len: usize,
        proofs: *mut u64,
        proofs_len: usize,
        depths: *mut u64,
        depths_len: usize,
        marks: *mut u8,
        marks_len: usize,
    ) -> Authorised;
}

/// The same by the rules of a table, whose refusals come first.
macro_rules! of_section_by_rules {
    ($($(#[$doc:meta])* $name:ident -> $answer:ty;)*) => {
        unsafe extern "C" {
            $(
                $(#[$doc])*
                pub fn $name(
                    rules: *const u8,
                    rules_len: usize,
                    bytes: *const u8,
                    bytes_len: usize,
                    cursor: usize,
                    number: u32,
                    propositions: *mut u64,
                    propositions_len: usize,
                    proofs: *mut u64,
                    proofs_len: usize,
                    depths: *mut u64,
                    depths_len: usize,
                ) -> $answer;
            )*
        }
    };
}

of_section_by_rules! {
    /// A proposition by its number, as [`falgnust_proposition_number`](super::falgnust_proposition_number) gives it by the four.
    falgnust_proposition_number_by_rules -> Proposition;
    /// A proof by its number.
    falgnust_proof_number_by_rules -> Proof;
    /// A witness by its number.
    falgnust_witness_number_by_rules -> Witness;
    /// A parent cell by its number.
    falgnust_parent_number_by_rules -> Parent;
}

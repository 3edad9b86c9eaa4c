//! Which propositions of a section are authorised, and two sections compared: crates/falgnust/src/authorised_all.rt and compare.rt

use super::{Refusal, Section};

/// How two sections compare: how many propositions have each verdict, or whose refusal it is and why.
#[repr(C)]
#[derive(Debug, Default, Clone, Copy, PartialEq, Eq)]
pub struct Comparison {
    /// Whether they were compared.
    pub accepted: bool,
    /// Whose refusal it is: 0 no one's, 1 the table's of rules, 2 the first section's, 3 the second's, 4 of both together.
    pub whose: u8,
    /// Why they were not.
    pub refusal: Refusal,
    /// Authorised in both or in neither.
    pub agreed: usize,
    /// Authorised in one of the two alone.
    pub contradicted: usize,
    /// In the first section alone.
    pub first_only: usize,
    /// In the second section alone.
    pub second_only: usize,
}

unsafe extern "C" {
    /// The section at a cursor, with the marks; of each proposition whether it is authorised goes to a fifth table, as 1 or 0.
    pub fn falgnust_authorised_table(
        bytes: *const u8,
        bytes_len: usize,
        cursor: usize,
        propositions: *mut u64,
        propositions_len: usize,
        proofs: *mut u64,
        proofs_len: usize,
        depths: *mut u64,
        depths_len: usize,
        marks: *mut u8,
        marks_len: usize,
        authorised: *mut u8,
        authorised_len: usize,
    ) -> Section;

    /// The same by the rules of a table.
    pub fn falgnust_authorised_table_by_rules(
        rules: *const u8,
        rules_len: usize,
        bytes: *const u8,
        bytes_len: usize,
        cursor: usize,
        propositions: *mut u64,
        propositions_len: usize,
        proofs: *mut u64,
        proofs_len: usize,
        depths: *mut u64,
        depths_len: usize,
        marks: *mut u8,
        marks_len: usize,
        authorised: *mut u8,
        authorised_len: usize,
    ) -> Section;

    /// Two sections compared: the verdicts, in the order of propositions, go to the last table, and the ten tables before it hold both sections.
    pub fn falgnust_compare_sections(
        first: *const u8,
        first_len: usize,
        first_cursor: usize,
        first_propositions: *mut u64,
        first_propositions_len: usize,
        first_proofs: *mut u64,
        first_proofs_len: usize,
        first_depths: *mut u64,
        first_depths_len: usize,
        first_marks: *mut u8,
        first_marks_len: usize,
        first_authorised: *mut u8,
        first_authorised_len: usize,
        second: *const u8,
        second_len: usize,
        second_cursor: usize,
        second_propositions: *mut u64,
        second_propositions_len: usize,
        second_proofs: *mut u64,
        second_proofs_len: usize,
        second_depths: *mut u64,
        second_depths_len: usize,
        second_marks: *mut u8,
        second_marks_len: usize,
        second_authorised: *mut u8,
        second_authorised_len: usize,
        verdicts: *mut u8,
        verdicts_len: usize,
    ) -> Comparison;

    /// The same by the rules of one table.
    pub fn falgnust_compare_sections_by_rules(
        rules: *const u8,
        rules_len: usize,
        first: *const u8,
        first_len: usize,
        first_cursor: usize,
        first_propositions: *mut u64,
        first_propositions_len: usize,
        first_proofs: *mut u64,
        first_proofs_len: usize,
        first_depths: *mut u64,
        first_depths_len: usize,
        first_marks: *mut u8,
        first_marks_len: usize,
        first_authorised: *mut u8,
        first_authorised_len: usize,
        second: *const u8,
        second_len: usize,
        second_cursor: usize,
        second_propositions: *mut u64,
        second_propositions_len: usize,
        second_proofs: *mut u64,
        second_proofs_len: usize,
        second_depths: *mut u64,
        second_depths_len: usize,
        second_marks: *mut u8,
        second_marks_len: usize,
        second_authorised: *mut u8,
        second_authorised_len: usize,
        verdicts: *mut u8,
        verdicts_len: usize,
    ) -> Comparison;
}

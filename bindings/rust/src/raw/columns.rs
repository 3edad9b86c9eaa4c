//! Sections by column: crates/falgnust/src/columns.rt

use super::Refusal;

/// What was written.
#[repr(C)]
#[derive(Debug, Default, Clone, Copy, PartialEq, Eq)]
pub struct Columns {
    /// Whether it was written.
    pub accepted: bool,
    /// Why not.
    pub refusal: Refusal,
    /// How many bytes of the output were written; those past them are zeros.
    pub length: usize,
}

unsafe extern "C" {
    /// The section at a cursor, written by column.
    pub fn falgnust_write_columns(
        bytes: *const u8,
        bytes_len: usize,
        cursor: usize,
        propositions: *mut u64,
        propositions_len: usize,
        proofs: *mut u64,
        proofs_len: usize,
        depths: *mut u64,
        depths_len: usize,
        output: *mut u8,
        output_len: usize,
    ) -> Columns;

    /// The section that some columns are of.
    pub fn falgnust_take_columns(
        columns: *const u8,
        columns_len: usize,
        propositions: *mut u64,
        propositions_len: usize,
        proofs: *mut u64,
        proofs_len: usize,
        depths: *mut u64,
        depths_len: usize,
        output: *mut u8,
        output_len: usize,
    ) -> Columns;

    /// The section at a cursor, by the rules of a table, written by column.
    pub fn falgnust_write_columns_by_rules(
        rules: *const u8,
        rules_len: usize,
        bytes: *const u8,
        bytes_len: usize,
        cursor: usize,
        propositions: *mut u64,
        propositions_len: usize,
        proofs: *mut u64,
        proofs_len: usize,
        depths: *mut u64,
        depths_len: usize,
        output: *mut u8,
        output_len: usize,
    ) -> Columns;

    /// The section, by the rules of a table, that some columns are of.
    pub fn falgnust_take_columns_by_rules(
        rules: *const u8,
        rules_len: usize,
        columns: *const u8,
        columns_len: usize,
        propositions: *mut u64,
        propositions_len: usize,
        proofs: *mut u64,
        proofs_len: usize,
        depths: *mut u64,
        depths_len: usize,
        output: *mut u8,
        output_len: usize,
    ) -> Columns;
}

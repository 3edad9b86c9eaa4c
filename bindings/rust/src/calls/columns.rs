//! Sections by column.

use super::SectionTables;
use crate::raw::*;

/// The section at a cursor, written by column into an output that is lent.
#[inline]
pub fn write_columns(
    bytes: &[u8],
    cursor: usize,
    lent: SectionTables,
    output: &mut [u8],
) -> Columns {
    call!(falgnust_write_columns(in bytes, cursor, section lent, out output))
}

/// The section that some columns are of, in an output that is lent.
#[inline]
pub fn take_columns(columns: &[u8], lent: SectionTables, output: &mut [u8]) -> Columns {
    call!(falgnust_take_columns(in columns, section lent, out output))
}

/// The section at a cursor, by the rules of a table, written by column.
#[inline]
pub fn write_columns_by_rules(
    rules: &[u8],
    bytes: &[u8],
    cursor: usize,
    lent: SectionTables,
    output: &mut [u8],
) -> Columns {
    call!(falgnust_write_columns_by_rules(in rules, in bytes, cursor, section lent, out output))
}

/// The section, by the rules of a table, that some columns are of.
#[inline]
pub fn take_columns_by_rules(
    rules: &[u8],
    columns: &[u8],
    lent: SectionTables,
    output: &mut [u8],
) -> Columns {
    call!(falgnust_take_columns_by_rules(in rules, in columns, section lent, out output))
}

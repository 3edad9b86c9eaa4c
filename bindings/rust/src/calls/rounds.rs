//! Depth by rounds. The rounds take the place of the depths in the tables that are lent.

use super::SectionTables;
use crate::raw::*;

/// The depths of the section at a cursor by rounds.
#[inline]
pub fn depth_by_rounds(bytes: &[u8], cursor: usize, lent: SectionTables) -> Rounds {
    call!(falgnust_depth_by_rounds(in bytes, cursor, section lent))
}

/// The same by the rules of a table, which is loaded first.
#[inline]
pub fn depth_by_rounds_by_rules(
    rules: &[u8],
    bytes: &[u8],
    cursor: usize,
    lent: SectionTables,
) -> Rounds {
    call!(falgnust_depth_by_rounds_by_rules(in rules, in bytes, cursor, section lent))
}

//! Tables of rules, and sections by the rules of one. The table is loaded anew by each call, and its refusals, 69 and 70, come before any of
//! the section.

use super::SectionTables;
use crate::raw::*;

/// Whether bytes are a table of rules, and of how many.
#[inline]
pub fn load_rules(rules: &[u8]) -> Rules {
    call!(falgnust_load_rules(in rules))
}

/// The section at a cursor, with the marks.
#[inline]
pub fn decode_evr0_section_by_rules(
    rules: &[u8],
    bytes: &[u8],
    cursor: usize,
    lent: SectionTables,
    marks: &mut [u8],
) -> Section {
    call!(falgnust_decode_evr0_section_by_rules(in rules, in bytes, cursor, section lent, out marks))
}

/// The section at a cursor, without the marks.
#[inline]
pub fn decode_evr0_unmarked_by_rules(
    rules: &[u8],
    bytes: &[u8],
    cursor: usize,
    lent: SectionTables,
) -> Section {
    call!(falgnust_decode_evr0_unmarked_by_rules(in rules, in bytes, cursor, section lent))
}

/// A proposition of the section at a cursor.
#[inline]
pub fn proposition_number_by_rules(
    rules: &[u8],
    bytes: &[u8],
    cursor: usize,
    number: u32,
    lent: SectionTables,
) -> Proposition {
    call!(falgnust_proposition_number_by_rules(in rules, in bytes, cursor, number, section lent))
}

/// A proof of the section at a cursor.
#[inline]
pub fn proof_number_by_rules(
    rules: &[u8],
    bytes: &[u8],
    cursor: usize,
    number: u32,
    lent: SectionTables,
) -> Proof {
    call!(falgnust_proof_number_by_rules(in rules, in bytes, cursor, number, section lent))
}

/// A witness of the section at a cursor.
#[inline]
pub fn witness_number_by_rules(
    rules: &[u8],
    bytes: &[u8],
    cursor: usize,
    number: u32,
    lent: SectionTables,
) -> Witness {
    call!(falgnust_witness_number_by_rules(in rules, in bytes, cursor, number, section lent))
}

/// A parent cell of the section at a cursor.
#[inline]
pub fn parent_number_by_rules(
    rules: &[u8],
    bytes: &[u8],
    cursor: usize,
    number: u32,
    lent: SectionTables,
) -> Parent {
    call!(falgnust_parent_number_by_rules(in rules, in bytes, cursor, number, section lent))
}

/// The way down from a proof of the section at a cursor, with at most `limit` moves.
#[inline]
pub fn way_down_by_rules(
    rules: &[u8],
    bytes: &[u8],
    cursor: usize,
    from: u32,
    limit: u64,
    lent: SectionTables,
) -> WayDown {
    call!(falgnust_way_down_by_rules(in rules, in bytes, cursor, from, limit, section lent))
}

/// Whether a proposition of the section at a cursor is authorised. The marks go to a table that is lent, too.
#[inline]
pub fn authorised_by_rules(
    rules: &[u8],
    bytes: &[u8],
    cursor: usize,
    proposition: u32,
    lent: SectionTables,
    marks: &mut [u8],
) -> Authorised {
    call!(falgnust_authorised_by_rules(in rules, in bytes, cursor, proposition, section lent, out marks))
}

//! Which propositions of a section are authorised, and two sections compared.

use super::SectionTables;
use crate::raw::*;

/// A section and the tables that are lent for it.
pub struct Lent<'a> {
    /// The bytes in which it stands.
    pub bytes: &'a [u8],
    /// Where it starts.
    pub cursor: usize,
    /// Starts and depths.
    pub tables: SectionTables<'a>,
    /// One byte for each proof: its mark.
    pub marks: &'a mut [u8],
    /// One byte for each proposition: 1 where it is authorised, else 0.
    pub authorised: &'a mut [u8],
}

/// The section, with the marks, and of each proposition whether it is authorised.
#[inline]
pub fn authorised_table(lent: Lent) -> Section {
    call!(falgnust_authorised_table(marked lent))
}

/// The same by the rules of a table.
#[inline]
pub fn authorised_table_by_rules(rules: &[u8], lent: Lent) -> Section {
    call!(falgnust_authorised_table_by_rules(in rules, marked lent))
}

/// Two sections compared. The verdicts go to a table that is lent, in the order of propositions: 1 agreed, 2 contradicted, 3 in the first alone, 4 in
/// the second alone. 1 and 2 stand for the next proposition of both sections, 3 for the first's and 4 for the second's.
#[inline]
pub fn compare_sections(first: Lent, second: Lent, verdicts: &mut [u8]) -> Comparison {
    call!(falgnust_compare_sections(marked first, marked second, out verdicts))
}

/// The same by the rules of one table.
#[inline]
pub fn compare_sections_by_rules(
    rules: &[u8],
    first: Lent,
    second: Lent,
    verdicts: &mut [u8],
) -> Comparison {
    call!(falgnust_compare_sections_by_rules(in rules, marked first, marked second, out verdicts))
}

//! Sections by other rules than the four.

use super::ask::{answer, payload};
use super::compare::{CompareError, Comparison, authorised_by, compared};
use super::marks::marked;
use super::rounds::rounds;
use super::tables::lend;
use super::{DecodedEvr0, Evr0Error, Proof, Proposition, WayDown, Witness, decoded, records};
use crate::calls;
use crate::messages;
use crate::raw::Refusal;
use std::fmt;

/// Why bytes are no table of rules.
#[derive(Debug, Clone, PartialEq, Eq)]
pub struct RulesError {
    /// Where in the table: 0.
    pub offset: usize,
    /// Why.
    pub message: &'static str,
}

impl RulesError {
    /// Document 02's number, which the message gives: 69 a count or rule outside its bounds or cut, or bytes left over; 70 a name given
    /// twice; none for a message that is not the loader's.
    pub fn number(&self) -> Option<u8> {
        messages::number(self.message).filter(|number| matches!(number, 69 | 70))
    }

    fn new(refusal: Refusal) -> Self {
        RulesError {
            offset: refusal.offset,
            message: messages::message(refusal.number),
        }
    }
}

impl fmt::Display for RulesError {
    fn fmt(&self, f: &mut fmt::Formatter) -> fmt::Result {
        write!(f, "{} at {}", self.message, self.offset)
    }
}

impl std::error::Error for RulesError {}

/// 1 to 32 rules in the place of the four, and what can be asked of sections by them. Each method is the function of its name in
/// [`evr0`](super), with these rules for the four: a name that is not among them is 20, and 29 asks the polarity that a rule gives.
///
/// ```
/// use falgnust::evr0::RuleTable;
///
/// let mut bytes = vec![2]; // two rules, each: name; witnesses, parents, operation, polarity
/// bytes.extend(b"\x0c\x00parish-entry\x01\x00\x00\x01");
/// bytes.extend(b"\x07\x00release\x00\x01\x01\x02");
/// let rules = RuleTable::load(&bytes).unwrap();
/// assert_eq!(rules.count(), 2);
///
/// let error = rules.decode(b"EVR1", &mut 0).unwrap_err();
/// assert_eq!((error.number(), error.offset), (Some(1), 0));
///
/// bytes[0] = 3; // the third rule is cut
/// let error = RuleTable::load(&bytes).unwrap_err();
/// assert_eq!((error.number(), error.offset), (Some(69), 0));
///
/// let again = bytes[1..19].to_vec(); // the first rule once more
/// bytes.extend(again);
/// let error = RuleTable::load(&bytes).unwrap_err();
/// assert_eq!(error.to_string(), "rule's name given twice at 0");
/// ```
#[derive(Debug, Clone, PartialEq, Eq)]
pub struct RuleTable {
    bytes: Vec<u8>,
    count: usize,
}

impl RuleTable {
    /// The four as a table: with these loaded all answers are those of the functions beside.
    pub const FOUR: &[u8] = include_bytes!("../../../../examples/four.rules");

    /// Loads a table: a byte with the count, then each rule's name as text (a 2-byte length and 1 to 64 bytes of UTF-8 without control
    /// characters), witness count, parent count, operation and polarity, a byte each. A rule has either one witness, no parent and polarity
    /// 0 or 1, or no witness, 1 or 2 parents and polarity 2, which is not asked; its operation is 0 or 1.
    pub fn load(bytes: &[u8]) -> Result<RuleTable, RulesError> {
        let loaded = calls::load_rules(bytes);
        if !loaded.accepted {
            return Err(RulesError::new(loaded.refusal));
        }
        Ok(RuleTable {
            bytes: bytes.to_vec(),
            count: loaded.count,
        })
    }

    /// How many rules there are.
    pub fn count(&self) -> usize {
        self.count
    }

    /// The table as it was loaded.
    pub fn bytes(&self) -> &[u8] {
        &self.bytes
    }

    /// Decodes the section at `cursor`, and moves `cursor` past it, as [`decode_evr0_section`](super::decode_evr0_section).
    pub fn decode(&self, bytes: &[u8], cursor: &mut usize) -> Result<DecodedEvr0, Evr0Error> {
        let from = *cursor;
        decoded(bytes, cursor, |lent| {
            calls::decode_evr0_unmarked_by_rules(&self.bytes, bytes, from, lent)
        })
    }

    /// The mark of each proof, as [`marks`](super::marks).
    pub fn marks(&self, bytes: &[u8], cursor: usize) -> Result<Vec<u8>, Evr0Error> {
        marked(bytes, |lent, marks| {
            calls::decode_evr0_section_by_rules(&self.bytes, bytes, cursor, lent, marks)
        })
    }

    /// The depth of each proof by rounds, as [`depth_by_rounds`](super::depth_by_rounds).
    pub fn depth_by_rounds(&self, bytes: &[u8], cursor: usize) -> Result<Vec<u64>, Evr0Error> {
        rounds(bytes, |lent| {
            calls::depth_by_rounds_by_rules(&self.bytes, bytes, cursor, lent)
        })
    }

    /// The way down from a proof, as [`way_down`](super::way_down).
    pub fn way_down(
        &self,
        bytes: &[u8],
        cursor: usize,
        from: u32,
        limit: u64,
    ) -> Result<Option<WayDown>, Evr0Error> {
        answer(lend(bytes, |lent| {
            let read = calls::way_down_by_rules(&self.bytes, bytes, cursor, from, limit, lent);
            records::way_down(read)
        }))
    }

    /// Whether a proposition is authorised, as [`authorised`](super::authorised).
    pub fn authorised(
        &self,
        bytes: &[u8],
        cursor: usize,
        proposition: u32,
    ) -> Result<Option<bool>, Evr0Error> {
        answer(lend(bytes, |lent| {
            let marks = &mut vec![0; lent.depths.len()];
            let read =
                calls::authorised_by_rules(&self.bytes, bytes, cursor, proposition, lent, marks);
            records::authorised(read)
        }))
    }

    /// Of each proposition whether it is authorised, as [`authorised_table`](super::authorised_table).
    pub fn authorised_table(&self, bytes: &[u8], cursor: usize) -> Result<Vec<bool>, Evr0Error> {
        authorised_by(bytes, cursor, |lent| {
            calls::authorised_table_by_rules(&self.bytes, lent)
        })
    }

    /// Two sections compared, both by these rules, as [`compare_sections`](super::compare_sections).
    pub fn compare_sections(
        &self,
        first: &[u8],
        first_cursor: usize,
        second: &[u8],
        second_cursor: usize,
    ) -> Result<Comparison, CompareError> {
        compared(
            (first, first_cursor),
            (second, second_cursor),
            |first, second, verdicts| {
                calls::compare_sections_by_rules(&self.bytes, first, second, verdicts)
            },
        )
    }

    /// A proposition by its number.
    pub fn proposition_number(
        &self,
        bytes: &[u8],
        cursor: usize,
        number: u32,
    ) -> Result<Option<Proposition>, Evr0Error> {
        answer(lend(bytes, |lent| {
            let read = calls::proposition_number_by_rules(&self.bytes, bytes, cursor, number, lent);
            records::proposition(payload(bytes, cursor), read)
        }))
    }

    /// A proof by its number.
    pub fn proof_number(
        &self,
        bytes: &[u8],
        cursor: usize,
        number: u32,
    ) -> Result<Option<Proof>, Evr0Error> {
        answer(lend(bytes, |lent| {
            let read = calls::proof_number_by_rules(&self.bytes, bytes, cursor, number, lent);
            records::proof(payload(bytes, cursor), read)
        }))
    }

    /// A witness by its number.
    pub fn witness_number(
        &self,
        bytes: &[u8],
        cursor: usize,
        number: u32,
    ) -> Result<Option<Witness>, Evr0Error> {
        answer(lend(bytes, |lent| {
            let read = calls::witness_number_by_rules(&self.bytes, bytes, cursor, number, lent);
            records::witness(read)
        }))
    }

    /// The proof's number in a parent cell, by the cell's number.
    pub fn parent_number(
        &self,
        bytes: &[u8],
        cursor: usize,
        number: u32,
    ) -> Result<Option<u32>, Evr0Error> {
        answer(lend(bytes, |lent| {
            let read = calls::parent_number_by_rules(&self.bytes, bytes, cursor, number, lent);
            records::parent(read)
        }))
    }
}

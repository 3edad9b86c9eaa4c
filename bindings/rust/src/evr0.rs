//! Evidence sections, in the place of the original's `evr0`. Structural success says nothing of the source, compiler, issuer or
//! witnesses.
//!
//! Added beside the original: [`Evr0Error::number`], `Display` and `Error` for [`Evr0Error`], the records by number
//! ([`proposition_number`], [`proof_number`], [`witness_number`], [`parent_number`]), [`way_down`], [`authorised`], [`authorised_table`],
//! [`marks`] and [`depth_by_rounds`]; two sections compared ([`compare_sections`]); sections by column ([`write_columns`], [`take_columns`]); and
//! all of them by other rules than the four ([`RuleTable`], [`RulesError`]).
//!
//! Otherwise than in the original, sections of schema 2 are read too, so that a witness's span has 64 bits under either schema, and a section
//! says which it has ([`DecodedEvr0::schema`]). A caller that names these types sees it when it is compiled.

use crate::calls::{self, SectionTables};
use crate::messages;
use crate::raw;
use std::fmt;

mod ask;
mod columns;
mod compare;
mod marks;
mod records;
mod rounds;
mod rules;
mod tables;

pub use ask::*;
pub use columns::{ColumnsError, take_columns, write_columns};
pub use compare::{
    CompareError, Compared, Comparison, Verdict, authorised_table, compare_sections,
};
pub use marks::marks;
pub use rounds::depth_by_rounds;
pub use rules::{RuleTable, RulesError};
use tables::{Counted, Few};

/// The longest payload.
pub const MAX_EVR0_PAYLOAD: usize = 4 * 1024 * 1024;
/// The most bytes of a text.
pub const MAX_EVR0_STRING_BYTES: usize = 4096;
/// The most propositions.
pub const MAX_EVR0_PROPOSITIONS: usize = 65_536;
/// The most proofs.
pub const MAX_EVR0_PROOFS: usize = 65_536;
/// The most witnesses.
pub const MAX_EVR0_WITNESSES: usize = 262_144;
/// The most parent cells.
pub const MAX_EVR0_PARENTS: usize = 262_144;
/// The greatest depth of a proof.
pub const MAX_EVR0_DEPTH: usize = 256;
/// The most bytes that payload, records and depths may take together.
pub const MAX_EVR0_LOGICAL_ALLOC: usize = 16 * 1024 * 1024;
/// The most that payload length and counts may come to.
pub const MAX_EVR0_WORK_UNITS: usize = 8 * 1024 * 1024;

/// What kind of refusal it is.
#[derive(Debug, Clone, Copy, PartialEq, Eq)]
pub enum Evr0ErrorKind {
    /// The bytes are no section.
    Invalid,
    /// The section is larger than is allowed.
    ResourceLimit,
}

/// A refusal.
#[derive(Debug, Clone, PartialEq, Eq)]
pub struct Evr0Error {
    /// What kind it is.
    pub kind: Evr0ErrorKind,
    /// Where in the file.
    pub offset: usize,
    /// Why.
    pub message: &'static str,
}

impl Evr0Error {
    /// Document 01's number, which the message gives: 1 to 29, and none for a message that is not the decoder's.
    pub fn number(&self) -> Option<u8> {
        messages::number(self.message).filter(|number| *number < 30)
    }

    fn new(refusal: raw::Refusal) -> Self {
        Evr0Error {
            kind: match refusal.kind {
                0 => Evr0ErrorKind::Invalid,
                1 => Evr0ErrorKind::ResourceLimit,
                other => panic!("a section has no refusal of kind {other} here"),
            },
            offset: refusal.offset,
            message: messages::message(refusal.number),
        }
    }
}

impl fmt::Display for Evr0Error {
    fn fmt(&self, f: &mut fmt::Formatter) -> fmt::Result {
        write!(f, "{} at {}", self.message, self.offset)
    }
}

impl std::error::Error for Evr0Error {}

/// What proofs are about.
#[derive(Debug, Clone, PartialEq, Eq)]
pub struct Proposition {
    /// Its kind.
    pub kind: String,
    /// Its owner.
    pub ast_owner_id: u32,
    /// Its scope.
    pub semantic_scope_id: u32,
    /// Its type.
    pub type_obligation_id: u32,
}

/// A proof of a proposition, by a rule, on a witness or on other proofs.
#[derive(Debug, Clone, PartialEq, Eq)]
pub struct Proof {
    /// Its number, which is its place in the table.
    pub proof_id: u32,
    /// Its proposition.
    pub proposition_index: u32,
    /// Its rule.
    pub rule_id: String,
    /// Its authority.
    pub authority_context: u32,
    /// The first witness that it owns.
    pub witness_first: u32,
    /// How many witnesses it owns.
    pub witness_count: u32,
    /// The first parent cell that it owns.
    pub parent_first: u32,
    /// How many parent cells it owns.
    pub parent_count: u32,
    /// 1 where its operation is authorised.
    pub authorized_operation: u8,
}

/// A witness of a proposition.
#[derive(Debug, Clone, PartialEq, Eq)]
pub struct Witness {
    /// Its number, which is its place in the table.
    pub witness_id: u32,
    /// Its proposition.
    pub proposition_index: u32,
    /// 1 positive, 0 negative.
    pub polarity: u8,
    /// The first digest.
    pub file_digest: [u8; 32],
    /// Where its span starts. In the original this is a `u32`; schema 2 has 64 bits.
    pub source_start: u64,
    /// Where its span ends.
    pub source_end: u64,
    /// The second digest.
    pub origin_digest: [u8; 32],
}

/// A section.
#[derive(Debug, Clone, PartialEq, Eq)]
pub struct DecodedEvr0 {
    /// The first digest.
    pub source_set: [u8; 32],
    /// The second digest.
    pub compiler_contract: [u8; 32],
    /// The epoch.
    pub epoch: u16,
    /// The schema, 1 or 2. The original, a reader of schema 1, does not have this field.
    pub schema: u16,
    /// The policy's namespace.
    pub policy_namespace: String,
    /// The issuer's namespace.
    pub issuer_namespace: String,
    /// The propositions, strictly rising.
    pub propositions: Vec<Proposition>,
    /// The proofs, each after its parents.
    pub proofs: Vec<Proof>,
    /// The witnesses.
    pub witnesses: Vec<Witness>,
    /// The parent cells, each with a proof's number.
    pub parents: Vec<u32>,
}

/// Decodes the section at `cursor`, and moves `cursor` past it. A refusal leaves `cursor` as it was.
///
/// ```
/// use falgnust::evr0::{Evr0ErrorKind, decode_evr0_section};
///
/// let error = decode_evr0_section(b"EVR1", &mut 0).unwrap_err();
/// assert_eq!(error.kind, Evr0ErrorKind::Invalid);
/// assert_eq!(error.message, "missing mandatory EVR0 section");
/// assert_eq!((error.number(), error.offset), (Some(1), 0));
/// ```
pub fn decode_evr0_section(bytes: &[u8], cursor: &mut usize) -> Result<DecodedEvr0, Evr0Error> {
    let from = *cursor;
    decoded(bytes, cursor, |lent| {
        calls::decode_evr0_unmarked(bytes, from, lent)
    })
}

/// The records of the section at `cursor`, which `call` decodes.
#[inline]
fn decoded(
    bytes: &[u8],
    cursor: &mut usize,
    call: impl Fn(SectionTables) -> raw::Section,
) -> Result<DecodedEvr0, Evr0Error> {
    let mut few = Few::default();
    let mut section = call(few.lent());
    let (mut propositions, mut proofs) = (&few.propositions[..], &few.proofs[..]);
    let mut counted;
    if section.refusal.number == 61 {
        counted = Counted::new(bytes, section.refusal);
        section = call(counted.lent());
        (propositions, proofs) = (&counted.propositions, &counted.proofs);
    }
    if !section.accepted {
        return Err(Evr0Error::new(section.refusal));
    }
    let payload = &bytes[*cursor + HEADER..section.cursor];
    *cursor = section.cursor;
    Ok(records::section(payload, &section, propositions, proofs))
}

/// The bytes of the tag and of the payload's length.
const HEADER: usize = 4 + 4;

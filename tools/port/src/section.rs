//! Sections.

use crate::refusal;
use answers::Answer;
use answers::section::Head;
use falgnust::calls::{self, SectionTables};
use falgnust::raw;

/// The answer, and the cursor after the call. Starts, depths and marks go to the lent tables.
#[inline]
pub fn decode_evr0_section(
    bytes: &[u8],
    cursor: usize,
    propositions: &mut [u64],
    proofs: &mut [u64],
    depths: &mut [u64],
    marks: &mut [u8],
) -> (Answer<Head>, usize) {
    let lent = SectionTables {
        propositions,
        proofs,
        depths,
    };
    answer(calls::decode_evr0_section(bytes, cursor, lent, marks))
}

/// The same without the marks.
#[inline]
pub fn decode_evr0_unmarked(
    bytes: &[u8],
    cursor: usize,
    propositions: &mut [u64],
    proofs: &mut [u64],
    depths: &mut [u64],
) -> (Answer<Head>, usize) {
    let lent = SectionTables {
        propositions,
        proofs,
        depths,
    };
    answer(calls::decode_evr0_unmarked(bytes, cursor, lent))
}

/// The same by the rules of a table.
#[inline]
pub fn decode_evr0_unmarked_by_rules(
    rules: &[u8],
    bytes: &[u8],
    cursor: usize,
    propositions: &mut [u64],
    proofs: &mut [u64],
    depths: &mut [u64],
) -> (Answer<Head>, usize) {
    let lent = SectionTables {
        propositions,
        proofs,
        depths,
    };
    answer(calls::decode_evr0_unmarked_by_rules(
        rules, bytes, cursor, lent,
    ))
}

/// Whether a proposition is authorised; the tables are those of propositions, proofs and depths.
#[inline]
pub fn authorised(
    bytes: &[u8],
    cursor: usize,
    proposition: u32,
    [propositions, proofs, depths]: &mut [Vec<u64>; 3],
    marks: &mut [u8],
) -> Answer<bool> {
    let lent = SectionTables {
        propositions,
        proofs,
        depths,
    };
    let a = calls::authorised(bytes, cursor, proposition, lent, marks);
    match a.accepted {
        true => Ok(a.authorised),
        false => Err(refusal::answer(a.refusal)),
    }
}

/// A section's answer, and the cursor after the call.
#[inline]
pub fn answer(s: raw::Section) -> (Answer<Head>, usize) {
    if !s.accepted {
        return (Err(refusal::answer(s.refusal)), s.cursor);
    }
    let head = Head {
        source_set: s.source_set,
        compiler_contract: s.compiler_contract,
        epoch: s.epoch,
        schema: s.schema,
        policy: s.policy_at,
        issuer: s.issuer_at,
        policy_chars: s.policy_chars,
        issuer_chars: s.issuer_chars,
        counts: [s.propositions, s.proofs, s.witnesses, s.parents],
    };
    (Ok(head), s.cursor)
}

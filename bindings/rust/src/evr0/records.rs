//! The records of a section, as the proved functions give them.
//!
//! A text is copied without a second look at its bytes. That they are UTF-8 is in the contracts: a section is accepted, and a record read,
//! only where each of its texts is (`text_at` in crates/local_format/specs/Text.antt, refusal 7), and the words of a record that was read are
//! its fields (`proposition_words`, `proof_words` and `text_words_lem` in crates/record_words/proofs/Read.antt).

use super::{DecodedEvr0, Proof, Proposition, Witness};
use crate::calls;
use crate::raw::{self, Section, Span};
use crate::read::{Read, accepted, records, room, text, whole};

/// An accepted section: every record is read at its place in the payload.
#[inline]
pub fn section(
    payload: &[u8],
    section: &Section,
    propositions: &[u64],
    proofs: &[u64],
) -> DecodedEvr0 {
    let (policy_namespace, issuer_namespace) = namespaces(payload, section);
    DecodedEvr0 {
        source_set: section.source_set,
        compiler_contract: section.compiler_contract,
        epoch: section.epoch,
        schema: section.schema,
        policy_namespace,
        issuer_namespace,
        propositions: self::propositions(payload, &propositions[..section.propositions]),
        proofs: records(
            payload,
            &proofs[..section.proofs],
            calls::proof_words_in,
            |[
                number,
                proposition,
                start,
                len,
                authority,
                first_witness,
                witnesses,
                first_parent,
                parents,
                operation,
            ]| Proof {
                proof_id: number as u32,
                proposition_index: proposition as u32,
                rule_id: accepted_text(payload, start, len),
                authority_context: authority as u32,
                witness_first: first_witness as u32,
                witness_count: witnesses as u32,
                parent_first: first_parent as u32,
                parent_count: parents as u32,
                authorized_operation: operation as u8,
            },
        ),
        witnesses: witnesses(payload, section),
        parents: parents(payload, section),
    }
}

/// The propositions of an accepted section that start at these places.
#[inline]
pub fn propositions(payload: &[u8], starts: &[u64]) -> Vec<Proposition> {
    records(
        payload,
        starts,
        calls::proposition_words_in,
        |[start, len, owner, scope, obligation]| Proposition {
            kind: accepted_text(payload, start, len),
            ast_owner_id: owner as u32,
            semantic_scope_id: scope as u32,
            type_obligation_id: obligation as u32,
        },
    )
}

#[inline]
fn namespaces(payload: &[u8], section: &Section) -> (String, String) {
    let starts = [section.policy_at as u64, section.issuer_at as u64];
    let mut room = room();
    let (there, words) = calls::text_words_in(payload, &starts, &mut room[..4]);
    whole(there);
    (
        accepted_text(payload, words[0], words[1]),
        accepted_text(payload, words[2], words[3]),
    )
}

#[inline]
fn witnesses(payload: &[u8], section: &Section) -> Vec<Witness> {
    let Section {
        schema,
        witnesses,
        parents,
        ..
    } = *section;
    let len = payload.len();
    let place = |number| calls::witness_place(len, schema, witnesses, parents, number) as u64;
    let mut read = Vec::with_capacity(witnesses);
    let (mut starts, mut room) = ([0; 8], room());
    while read.len() < witnesses {
        let more = starts.len().min(witnesses - read.len());
        let (starts, room) = (&mut starts[..more], &mut room[..7 * more]);
        for (number, start) in (read.len() as u32..).zip(&mut *starts) {
            *start = place(number);
        }
        let (there, words) = calls::witness_words_in(payload, schema, starts, room);
        whole(there);
        for words in words.as_chunks().0 {
            read.push(witness_of(payload, *words));
        }
    }
    read
}

#[inline]
fn witness_of(payload: &[u8], words: [u64; 7]) -> Witness {
    let [number, proposition, polarity, file, start, end, origin] = words;
    Witness {
        witness_id: number as u32,
        proposition_index: proposition as u32,
        polarity: polarity as u8,
        file_digest: digest(payload, file),
        source_start: start,
        source_end: end,
        origin_digest: digest(payload, origin),
    }
}

#[inline]
fn digest(payload: &[u8], start: u64) -> [u8; 32] {
    let digest = payload[start as usize..].first_chunk();
    *digest.expect("a digest of what was accepted")
}

#[inline]
fn parents(payload: &[u8], section: &Section) -> Vec<u32> {
    let mut parents = Vec::with_capacity(section.parents);
    let mut room = room();
    while parents.len() < section.parents {
        let at = calls::parent_place(payload.len(), section.parents, parents.len() as u32);
        let more = room.len().min(section.parents - parents.len());
        let (there, words) = calls::parent_words_in(payload, at, &mut room[..more]);
        whole(there);
        parents.extend(words.iter().map(|word| *word as u32));
    }
    parents
}

/// A text of an accepted section, by its words.
#[inline]
#[allow(unsafe_code)]
fn accepted_text(payload: &[u8], start: u64, len: u64) -> String {
    // SAFETY: these are the words of a text of a section that the decoder (`falgnust_decode_evr0_unmarked`, the same by rules, or the comparison of two)
    // accepted, which is UTF-8 (`text_at` in crates/local_format/specs/Text.antt, refusal 7).
    unsafe { text(payload, start as usize, len as usize) }
}

// ---- A record by number

pub fn proposition(payload: &[u8], read: raw::Proposition) -> Read<Proposition> {
    accepted(read.accepted, read.refusal)?;
    Ok(Proposition {
        kind: read_text(payload, read.kind),
        ast_owner_id: read.ast_owner_id,
        semantic_scope_id: read.semantic_scope_id,
        type_obligation_id: read.type_obligation_id,
    })
}

pub fn proof(payload: &[u8], read: raw::Proof) -> Read<Proof> {
    accepted(read.accepted, read.refusal)?;
    Ok(Proof {
        proof_id: read.proof_id,
        proposition_index: read.proposition_index,
        rule_id: read_text(payload, read.rule_id),
        authority_context: read.authority_context,
        witness_first: read.witness_first,
        witness_count: read.witness_count,
        parent_first: read.parent_first,
        parent_count: read.parent_count,
        authorized_operation: read.authorized_operation,
    })
}

pub fn witness(read: raw::Witness) -> Read<Witness> {
    accepted(read.accepted, read.refusal)?;
    Ok(Witness {
        witness_id: read.witness_id,
        proposition_index: read.proposition_index,
        polarity: read.polarity,
        file_digest: read.file_digest,
        source_start: read.source_start,
        source_end: read.source_end,
        origin_digest: read.origin_digest,
    })
}

pub fn parent(read: raw::Parent) -> Read<u32> {
    accepted(read.accepted, read.refusal)?;
    Ok(read.proof_id)
}

/// The text of a record that was read.
#[allow(unsafe_code)]
fn read_text(payload: &[u8], span: Span) -> String {
    // SAFETY: this is the span of a record that `falgnust_proposition_number` or `falgnust_proof_number` accepted.
    unsafe { text(payload, span.start, span.len) }
}

pub fn way_down(read: raw::WayDown) -> Read<super::WayDown> {
    accepted(read.accepted, read.refusal)?;
    Ok(if read.spent {
        super::WayDown::Spent { proof: read.proof }
    } else {
        super::WayDown::Witness {
            witness: read.witness,
            moves: read.moves,
        }
    })
}

pub fn authorised(read: raw::Authorised) -> Read<bool> {
    accepted(read.accepted, read.refusal)?;
    Ok(read.authorised)
}

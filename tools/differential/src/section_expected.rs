//! What the C functions are to answer about a section, from the Rust's records; all that a refusal stands beside is zero.

use answers::Answer;
use falgnust::raw;
use oracle::evr0::characters;
use oracle::records::{DecodedEvr0, Proof, Proposition, Witness};

/// A record and its start in the payload.
pub type Record<T> = (u64, T);

/// Where a way down leads.
#[derive(Debug, Clone, Copy, PartialEq, Eq)]
pub enum Down {
    Witness(u32, u64),
    Spent(u32),
}

/// The way down from a proof: the first parent of each, until there is none or the limit is reached.
pub fn way_down(section: &DecodedEvr0, from: u32, limit: u64) -> Down {
    let (mut number, mut moves) = (from, 0);
    loop {
        let proof = &section.proofs[number as usize];
        if proof.parent_count == 0 {
            return Down::Witness(proof.witness_first, moves);
        }
        if moves == limit {
            return Down::Spent(number);
        }
        number = section.parents[proof.parent_first as usize];
        moves += 1;
    }
}

/// `accepted` and the refusal, and what is expected where there is no refusal.
fn parts<T>(expected: Answer<T>) -> (bool, raw::Refusal, Option<T>) {
    match expected {
        Ok(value) => (true, raw::Refusal::default(), Some(value)),
        Err(r) => {
            let refusal = raw::Refusal {
                kind: r.kind as u8,
                number: r.number,
                offset: r.offset,
            };
            (false, refusal, None)
        }
    }
}

/// A text whose length stands at a place.
fn span(at: usize, text: &str) -> raw::Span {
    raw::Span {
        start: at + 2,
        len: text.len(),
        chars: characters(text),
        next: at + 2 + text.len(),
    }
}

pub fn raw_proposition(expected: Answer<Record<Proposition>>) -> raw::Proposition {
    let (accepted, refusal, record) = parts(expected);
    let rest = raw::Proposition {
        accepted,
        refusal,
        ..Default::default()
    };
    let Some((start, p)) = record else {
        return rest;
    };
    let start = start as usize;
    raw::Proposition {
        start,
        kind: span(start, &p.kind),
        ast_owner_id: p.ast_owner_id,
        semantic_scope_id: p.semantic_scope_id,
        type_obligation_id: p.type_obligation_id,
        ..rest
    }
}

pub fn raw_proof(expected: Answer<Record<Proof>>) -> raw::Proof {
    let (accepted, refusal, record) = parts(expected);
    let rest = raw::Proof {
        accepted,
        refusal,
        ..Default::default()
    };
    let Some((start, p)) = record else {
        return rest;
    };
    let start = start as usize;
    raw::Proof {
        start,
        proof_id: p.proof_id,
        proposition_index: p.proposition_index,
        rule_id: span(start + 8, &p.rule_id),
        authority_context: p.authority_context,
        witness_first: p.witness_first,
        witness_count: p.witness_count,
        parent_first: p.parent_first,
        parent_count: p.parent_count,
        authorized_operation: p.authorized_operation,
        ..rest
    }
}

pub fn raw_witness(expected: Answer<Record<Witness>>) -> raw::Witness {
    let (accepted, refusal, record) = parts(expected);
    let rest = raw::Witness {
        accepted,
        refusal,
        ..Default::default()
    };
    let Some((start, w)) = record else {
        return rest;
    };
    raw::Witness {
        start: start as usize,
        file_digest: w.file_digest,
        origin_digest: w.origin_digest,
        witness_id: w.witness_id,
        proposition_index: w.proposition_index,
        polarity: w.polarity,
        source_start: w.source_start,
        source_end: w.source_end,
        ..rest
    }
}

/// The words of a witness at a place, by the width of a span.
pub fn witness_words(start: u64, width: u64, w: &Witness) -> [u64; 7] {
    [
        w.witness_id.into(),
        w.proposition_index.into(),
        w.polarity.into(),
        start + 12,
        w.source_start,
        w.source_end,
        start + 44 + 2 * width,
    ]
}

pub fn raw_parent(expected: Answer<Record<u32>>) -> raw::Parent {
    let (accepted, refusal, record) = parts(expected);
    let (start, proof_id) = record.unwrap_or_default();
    raw::Parent {
        accepted,
        refusal,
        start: start as usize,
        proof_id,
    }
}

pub fn raw_way_down(expected: Answer<Down>) -> raw::WayDown {
    let (accepted, refusal, down) = parts(expected);
    let rest = raw::WayDown {
        accepted,
        refusal,
        ..Default::default()
    };
    match down {
        Some(Down::Witness(witness, moves)) => raw::WayDown {
            witness,
            moves,
            ..rest
        },
        Some(Down::Spent(proof)) => raw::WayDown {
            spent: true,
            proof,
            ..rest
        },
        None => rest,
    }
}

pub fn raw_authorised(expected: Answer<bool>) -> raw::Authorised {
    let (accepted, refusal, authorised) = parts(expected);
    raw::Authorised {
        accepted,
        refusal,
        authorised: authorised.unwrap_or_default(),
    }
}

//! A section through the crate that callers link: the records of the Rust's vectors, its cursor, or its error with message and number.

use crate::by::By;
use crate::tally::{Tally, hex};
use falgnust::evr0;
use inputs::cases::SectionCase;
use oracle::evr0::{Evr0Error, Evr0ErrorKind};
use oracle::records::{DecodedEvr0, Proof, Proposition, Witness};

/// An answer in the Rust's own types, with document 01's number of an error.
pub type Told<T> = Result<T, (Evr0Error, Option<u8>)>;

pub fn compare(tally: &mut Tally, case: &SectionCase, by: By) {
    let (mut rust_cursor, mut port_cursor) = (case.cursor, case.cursor);
    let rust = by.rust(&case.file, &mut rust_cursor);
    let rust = rust_told(rust.map(|decoded| (by.schema(), decoded)));
    let port = by.crate_section(&case.file, &mut port_cursor);
    let port = told(port.map(section));
    tally.same(&(rust, rust_cursor), &(port, port_cursor), || {
        let (rules, cursor) = (by.told(), case.cursor);
        format!("the binding, {rules}cursor {cursor}, {}", hex(&case.file))
    });
}

pub fn rust_told<T>(answer: Result<T, Evr0Error>) -> Told<T> {
    answer.map_err(|error| {
        let number = oracle::messages::of_section(error.clone()).number;
        (error, Some(number))
    })
}

pub fn told<T>(answer: Result<T, evr0::Evr0Error>) -> Told<T> {
    answer.map_err(|error| {
        let number = error.number();
        let evr0::Evr0Error {
            kind,
            offset,
            message,
        } = error;
        let kind = match kind {
            evr0::Evr0ErrorKind::Invalid => Evr0ErrorKind::Invalid,
            evr0::Evr0ErrorKind::ResourceLimit => Evr0ErrorKind::ResourceLimit,
        };
        let error = Evr0Error {
            kind,
            offset,
            message,
        };
        (error, number)
    })
}

/// The schema, and the records.
pub fn section(decoded: evr0::DecodedEvr0) -> (u16, DecodedEvr0) {
    let evr0::DecodedEvr0 {
        source_set,
        compiler_contract,
        epoch,
        schema,
        policy_namespace,
        issuer_namespace,
        propositions,
        proofs,
        witnesses,
        parents,
    } = decoded;
    let decoded = DecodedEvr0 {
        source_set,
        compiler_contract,
        epoch,
        policy_namespace,
        issuer_namespace,
        propositions: propositions.into_iter().map(proposition).collect(),
        proofs: proofs.into_iter().map(proof).collect(),
        witnesses: witnesses.into_iter().map(witness).collect(),
        parents,
    };
    (schema, decoded)
}

pub fn proposition(p: evr0::Proposition) -> Proposition {
    let evr0::Proposition {
        kind,
        ast_owner_id,
        semantic_scope_id,
        type_obligation_id,
    } = p;
    Proposition {
        kind,
        ast_owner_id,
        semantic_scope_id,
        type_obligation_id,
    }
}

pub fn proof(p: evr0::Proof) -> Proof {
    let evr0::Proof {
        proof_id,
        proposition_index,
        rule_id,
        authority_context,
        witness_first,
        witness_count,
        parent_first,
        parent_count,
        authorized_operation,
    } = p;
    Proof {
        proof_id,
        proposition_index,
        rule_id,
        authority_context,
        witness_first,
        witness_count,
        parent_first,
        parent_count,
        authorized_operation,
    }
}

pub fn witness(w: evr0::Witness) -> Witness {
    let evr0::Witness {
        witness_id,
        proposition_index,
        polarity,
        file_digest,
        source_start,
        source_end,
        origin_digest,
    } = w;
    Witness {
        witness_id,
        proposition_index,
        polarity,
        file_digest,
        source_start,
        source_end,
        origin_digest,
    }
}

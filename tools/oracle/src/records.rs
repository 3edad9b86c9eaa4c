//! The records of a section of either schema, with spans of 64 bits: those of the model for schema 2.

use crate::evr0;
pub use crate::evr0::{Proof, Proposition};
pub use crate::evr0_wide::{DecodedEvr0, Witness};

/// What 14 counts for a witness: 84 under schema 1, and 96 under schema 2.
const _: () = assert!(size_of::<evr0::Witness>() == 84 && size_of::<Witness>() == 96);

/// The Rust's records, and a model's with its types, as they are.
pub fn of_schema_1(decoded: evr0::DecodedEvr0) -> DecodedEvr0 {
    let evr0::DecodedEvr0 {
        source_set,
        compiler_contract,
        epoch,
        policy_namespace,
        issuer_namespace,
        propositions,
        proofs,
        witnesses,
        parents,
    } = decoded;
    DecodedEvr0 {
        source_set,
        compiler_contract,
        epoch,
        policy_namespace,
        issuer_namespace,
        propositions,
        proofs,
        witnesses: witnesses.into_iter().map(witness).collect(),
        parents,
    }
}

fn witness(w: evr0::Witness) -> Witness {
    let evr0::Witness {
        witness_id,
        proposition_index,
        polarity,
        file_digest,
        source_start,
        source_end,
        origin_digest,
    } = w;
    Witness {
        witness_id,
        proposition_index,
        polarity,
        file_digest,
        source_start: source_start.into(),
        source_end: source_end.into(),
        origin_digest,
    }
}

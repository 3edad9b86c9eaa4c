//! Specimens 1 to 8 of document 01, and chains of 256 and 257 proofs.

use crate::written::{Proof as Written, chain, framed, op, section, witnessed};
use falgnust::evr0::{
    Evr0Error, Evr0ErrorKind, Proof, Proposition, WayDown, Witness, authorised,
    decode_evr0_section, parent_number, proof_number, proposition_number, way_down, witness_number,
};

/// Number and offset of a refusal, which leaves the cursor.
pub fn refused(file: &[u8]) -> (Option<u8>, usize) {
    let mut cursor = 0;
    let error = decode_evr0_section(file, &mut cursor).unwrap_err();
    assert_eq!(cursor, 0);
    (error.number(), error.offset)
}

#[test]
fn specimen_1() {
    let mut cursor = 0;
    let decoded = decode_evr0_section(&section(&[]), &mut cursor).unwrap();
    assert_eq!(cursor, 100);
    assert_eq!(decoded.source_set, [7; 32]);
    assert_eq!(decoded.compiler_contract, [8; 32]);
    assert_eq!((decoded.epoch, decoded.schema), (9, 1));
    assert_eq!(decoded.policy_namespace, "a");
    assert_eq!(decoded.issuer_namespace, "b");
    assert!(decoded.propositions.is_empty() && decoded.proofs.is_empty());
    assert!(decoded.witnesses.is_empty() && decoded.parents.is_empty());
}

#[test]
fn specimen_2() {
    let mut file = section(&[]);
    file[4..8].fill(0);
    assert_eq!(refused(&file), (Some(3), 4));
}

#[test]
fn specimen_3() {
    let file = section(&[witnessed(1)]);
    let mut cursor = 0;
    let decoded = decode_evr0_section(&file, &mut cursor).unwrap();
    assert_eq!(cursor, 246);
    assert_eq!(decoded.proofs.len(), 1);
    assert_eq!(refused(&section(&[witnessed(0)])), (Some(29), 8));
}

#[test]
fn specimen_4() {
    let file = section(&[witnessed(1), op(0)]);
    let mut cursor = 0;
    let decoded = decode_evr0_section(&file, &mut cursor).unwrap();
    assert_eq!(cursor, 295);
    let proposition = Proposition {
        kind: "k".into(),
        ast_owner_id: 1,
        semantic_scope_id: 2,
        type_obligation_id: 3,
    };
    let first = Proof {
        proof_id: 0,
        proposition_index: 0,
        rule_id: "POS-WITNESS-1".into(),
        authority_context: 7,
        witness_first: 0,
        witness_count: 1,
        parent_first: 0,
        parent_count: 0,
        authorized_operation: 0,
    };
    let second = Proof {
        proof_id: 1,
        rule_id: "OP-T-ONLY-1".into(),
        witness_first: 1,
        witness_count: 0,
        parent_count: 1,
        authorized_operation: 1,
        ..first.clone()
    };
    let witness = Witness {
        witness_id: 0,
        proposition_index: 0,
        polarity: 1,
        file_digest: [4; 32],
        source_start: 5,
        source_end: 6,
        origin_digest: [7; 32],
    };
    assert_eq!(decoded.propositions, std::slice::from_ref(&proposition));
    assert_eq!(decoded.proofs, [first.clone(), second.clone()]);
    assert_eq!(decoded.witnesses, std::slice::from_ref(&witness));
    assert_eq!(decoded.parents, [0]);

    assert_eq!(proposition_number(&file, 0, 0), Ok(Some(proposition)));
    assert_eq!(proof_number(&file, 0, 0), Ok(Some(first)));
    assert_eq!(proof_number(&file, 0, 1), Ok(Some(second)));
    assert_eq!(witness_number(&file, 0, 0), Ok(Some(witness)));
    assert_eq!(parent_number(&file, 0, 0), Ok(Some(0)));
    let end = WayDown::Witness {
        witness: 0,
        moves: 1,
    };
    assert_eq!(way_down(&file, 0, 1, 1), Ok(Some(end)));
    assert_eq!(
        way_down(&file, 0, 1, 0),
        Ok(Some(WayDown::Spent { proof: 1 }))
    );
    assert_eq!(authorised(&file, 0, 0), Ok(Some(true)));
}

#[test]
fn numbers_that_are_not_there() {
    let file = section(&[witnessed(1), op(0)]);
    for past in [1, u32::MAX] {
        assert_eq!(proposition_number(&file, 0, past), Ok(None));
        assert_eq!(proof_number(&file, 0, past + past % 3), Ok(None));
        assert_eq!(witness_number(&file, 0, past), Ok(None));
        assert_eq!(parent_number(&file, 0, past), Ok(None));
        assert_eq!(way_down(&file, 0, past.max(2), u64::MAX), Ok(None));
        assert_eq!(authorised(&file, 0, past), Ok(None));
    }
}

#[test]
fn specimen_5() {
    assert_eq!(refused(&section(&[witnessed(1), op(1)])), (Some(25), 291));
}

#[test]
fn specimen_6() {
    let other = Written {
        authority: 8,
        ..op(0)
    };
    assert_eq!(refused(&section(&[witnessed(1), other])), (Some(26), 291));
}

#[test]
fn specimen_7() {
    let mut file = section(&[]);
    file[8] = 3;
    assert_eq!(refused(&file), (Some(10), 10));
}

#[test]
fn specimen_8() {
    let mut payload = section(&[])[8..].to_vec();
    payload.push(0);
    let file = framed(&payload);
    assert_eq!(refused(&file), (Some(24), 100));
    let error = Evr0Error {
        kind: Evr0ErrorKind::Invalid,
        offset: 100,
        message: "EVR0 payload has trailing bytes",
    };
    assert_eq!(decode_evr0_section(&file, &mut 0), Err(error));
}

#[test]
fn chains_of_256_and_257() {
    let mut cursor = 0;
    let decoded = decode_evr0_section(&chain(256), &mut cursor).unwrap();
    assert_eq!(decoded.proofs.len(), 256);
    let end = WayDown::Witness {
        witness: 0,
        moves: 255,
    };
    assert_eq!(way_down(&chain(256), 0, 255, 255), Ok(Some(end)));
    assert_eq!(refused(&chain(257)), (Some(27), 8));
}

#[test]
fn a_payload_of_4_194_305() {
    assert_eq!(refused(&framed(&vec![0; 4_194_305])), (Some(3), 4));
}

//! Schema 2: spans of 8 bytes for start and end, and all else as under schema 1.

use crate::sections::refused;
use crate::written::{Proof, framed, op, section, section_of, witnessed};
use falgnust::calls::read_witness;
use falgnust::evr0::{
    DecodedEvr0, RuleTable, Witness, authorised, decode_evr0_section, marks, way_down,
    witness_number,
};

/// A span that 32 bits do not hold.
const LONG: [u64; 2] = [(1 << 32) + 5, u64::MAX];

const EXAMPLE: &[u8] = include_bytes!("../../../../examples/long.evr0");

fn decoded(file: &[u8]) -> (DecodedEvr0, usize) {
    let mut cursor = 0;
    let section = decode_evr0_section(file, &mut cursor).unwrap();
    (section, cursor)
}

/// Specimen 4, each witness with this span, and an OP proof's parent, which specimen 5 has otherwise.
fn two_proofs(schema: u16, span: [u64; 2], parent: u32) -> Vec<u8> {
    section_of(schema, span, &[witnessed(1), op(parent)])
}

#[test]
fn spans_of_64_bits() {
    let file = two_proofs(2, LONG, 0);
    let (section, cursor) = decoded(&file);
    assert_eq!((section.schema, cursor), (2, 295 + 8));
    let witness = Witness {
        witness_id: 0,
        proposition_index: 0,
        polarity: 1,
        file_digest: [4; 32],
        source_start: LONG[0],
        source_end: LONG[1],
        origin_digest: [7; 32],
    };
    assert_eq!(section.witnesses, std::slice::from_ref(&witness));
    assert_eq!(witness_number(&file, 0, 0), Ok(Some(witness)));
    assert_eq!(witness_number(&file, 0, 1), Ok(None));
}

/// The same section under either schema differs in the schema alone; a refusal behind a witness stands 8 bytes later.
#[test]
fn twins() {
    let twin = |schema| two_proofs(schema, [5, 6], 0);
    let (one, _) = decoded(&twin(1));
    let (mut other, _) = decoded(&twin(2));
    assert_eq!((one.schema, other.schema), (1, 2));
    other.schema = 1;
    assert_eq!(one, other);
    for schema in [1, 2] {
        assert_eq!(marks(&twin(schema), 0), Ok(vec![1, 1]));
        assert_eq!(authorised(&twin(schema), 0, 0), Ok(Some(true)));
    }
    assert_eq!(way_down(&twin(1), 0, 1, 9), way_down(&twin(2), 0, 1, 9));
    assert_eq!(refused(&two_proofs(1, [5, 6], 1)), (Some(25), 291));
    assert_eq!(refused(&two_proofs(2, [5, 6], 1)), (Some(25), 291 + 8));
}

#[test]
fn every_other_schema() {
    let mut file = section(&[]);
    for schema in 0..=u16::MAX {
        file[8..10].copy_from_slice(&schema.to_le_bytes());
        match schema {
            1 | 2 => assert_eq!(decoded(&file).0.schema, schema),
            _ => assert_eq!(refused(&file), (Some(10), 10), "{schema}"),
        }
    }
    assert_eq!(refused(&framed(&[3, 0])), (Some(10), 10));
    assert_eq!(refused(&framed(&[2, 0])), (Some(5), 10));
    assert_eq!(refused(&framed(&[2])), (Some(5), 8));
}

/// Start and end are compared whole, not by their lower halves.
#[test]
fn start_after_end() {
    let at = 8 + 238 - 84;
    for (span, is_refused) in [
        ([1 << 32, 1], true),
        ([(1 << 32) + 1, 1 << 32], true),
        ([6, 5], true),
        ([u64::MAX, u64::MAX - 1], true),
        ([1, 1 << 32], false),
        ([u32::MAX.into(), 1 << 32], false),
        ([u64::MAX, u64::MAX], false),
        ([0, 0], false),
    ] {
        let file = section_of(2, span, &[witnessed(1)]);
        match is_refused {
            true => assert_eq!(refused(&file), (Some(23), at), "{span:?}"),
            false => assert_eq!(decoded(&file).0.witnesses[0].source_start, span[0]),
        }
    }
}

/// A field of 8 bytes that is cut, in either half, is 5 at its start.
#[test]
fn a_span_cut() {
    let file = section_of(2, LONG, &[witnessed(1)]);
    let payload = &file[8..];
    let witness = payload.len() - 92;
    for end in witness + 44..witness + 60 {
        let cut = &payload[..end];
        let field = if end < witness + 52 { 44 } else { 52 };
        let read = read_witness(cut, 2, witness);
        assert_eq!((read.refusal.number, read.refusal.offset), (5, field));
        assert_eq!(read.source_start, 0);
    }
    assert!(read_witness(payload, 2, witness).accepted);
}

/// 13 counts 92 bytes for a witness under schema 2, and 84 under schema 1.
#[test]
fn least_sizes() {
    for (schema, size) in [(1, 84), (2, 92)] {
        let mut payload = section_of(schema, LONG, &[])[8..].to_vec();
        payload[84] = 1; // one witness
        payload.resize(92 + size - 1, 0);
        assert_eq!(refused(&framed(&payload)), (Some(13), 100));
        payload.push(0);
        assert_eq!(refused(&framed(&payload)), (Some(22), 100));
    }
}

#[test]
fn by_loaded_rules() {
    let rules = RuleTable::load(RuleTable::FOUR).unwrap();
    let file = two_proofs(2, LONG, 0);
    let section = rules.decode(&file, &mut 0).unwrap();
    assert_eq!(section, decoded(&file).0);
    let witness = rules.witness_number(&file, 0, 0).unwrap().unwrap();
    assert_eq!([witness.source_start, witness.source_end], LONG);
    let other = Proof {
        rule: "NEG-WITNESS-1",
        ..witnessed(1)
    };
    let file = section_of(2, LONG, &[other]);
    let error = rules.decode(&file, &mut 0).unwrap_err();
    assert_eq!((error.number(), error.offset), (Some(29), 8));
}

#[test]
fn the_example() {
    let (section, cursor) = decoded(EXAMPLE);
    assert_eq!((section.schema, cursor), (2, EXAMPLE.len()));
    let longest = section.witnesses.iter().map(|w| w.source_end).max();
    assert!(longest > Some(u32::MAX.into()));
}

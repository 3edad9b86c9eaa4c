//! Lent tables of the lengths that follow from a section's own length are just long enough: one entry less, and some section is refused for it.

use crate::written::framed;
use falgnust::calls::{SectionTables, decode_evr0_section, decode_evr0_unmarked};
use falgnust::evr0;

/// A payload of this length with these propositions and proofs, as far as they are asked before the records are.
fn file(length: usize, propositions: usize, proofs: usize) -> Vec<u8> {
    let mut payload = vec![1, 0, 0, 0];
    payload.extend([0; 32 + 32 + 2]);
    payload.extend(b"\x01\x00a\x01\x00b");
    for count in [propositions, proofs, 0, 0] {
        payload.extend((count as u32).to_le_bytes());
    }
    payload.resize(length, 0);
    framed(&payload)
}

/// The number of the answer with tables of these lengths, and marks as many as depths.
fn number(file: &[u8], propositions: usize, proofs: usize, depths: usize) -> u8 {
    let number = marked(file, propositions, proofs, depths, depths);
    let lent = SectionTables {
        propositions: &mut vec![0; propositions],
        proofs: &mut vec![0; proofs],
        depths: &mut vec![0; depths],
    };
    assert_eq!(decode_evr0_unmarked(file, 0, lent).refusal.number, number);
    number
}

fn marked(file: &[u8], propositions: usize, proofs: usize, depths: usize, marks: usize) -> u8 {
    let lent = SectionTables {
        propositions: &mut vec![0; propositions],
        proofs: &mut vec![0; proofs],
        depths: &mut vec![0; depths],
    };
    decode_evr0_section(file, 0, lent, &mut vec![0; marks])
        .refusal
        .number
}

fn checked(length: usize) {
    let propositions = ((length - 92) / 15).min(65_536);
    let proofs = ((length - 92) / 35).min(65_536);

    let full = file(length, propositions, 0);
    assert_ne!(number(&full, propositions, 0, 0), 61);
    if propositions > 0 {
        assert_eq!(number(&full, propositions - 1, 0, 0), 61);
    }
    evr0::decode_evr0_section(&full, &mut 0).ok();

    let full = file(length, 0, proofs);
    assert_ne!(number(&full, 0, proofs, proofs), 61);
    if proofs > 0 {
        assert_eq!(number(&full, 0, proofs - 1, proofs), 61);
        assert_eq!(number(&full, 0, proofs, proofs - 1), 61);
        assert_eq!(marked(&full, 0, proofs, proofs, proofs - 1), 61);
    }
    evr0::marks(&full, 0).ok();
    evr0::decode_evr0_section(&full, &mut 0).ok();

    let more = [
        file(length, propositions + 1, 0),
        file(length, 0, proofs + 1),
    ];
    for file in more {
        assert!([12, 13].contains(&number(&file, 0, 0, 0)));
    }
}

#[test]
fn short_payloads() {
    for length in 92..400 {
        checked(length);
    }
}

#[test]
fn the_longest_payload() {
    checked(4_194_304);
}

//! How many characters both namespaces have, through the C function on slices.

use crate::written::framed;
use falgnust::calls::{SectionTables, decode_evr0_unmarked};

/// A section without records, with these namespaces.
fn named(policy: &str, issuer: &str) -> Vec<u8> {
    let mut payload = vec![1, 0, 0, 0];
    payload.extend([0; 66]);
    for text in [policy, issuer] {
        payload.extend((text.len() as u16).to_le_bytes());
        payload.extend(text.as_bytes());
    }
    payload.extend([0; 16]);
    framed(&payload)
}

fn characters(file: &[u8]) -> (bool, usize, usize) {
    let lent = SectionTables {
        propositions: &mut [],
        proofs: &mut [],
        depths: &mut [],
    };
    let section = decode_evr0_unmarked(file, 0, lent);
    (section.accepted, section.policy_chars, section.issuer_chars)
}

#[test]
fn scalar_values_are_counted() {
    assert_eq!(characters(&named("\u{1f600}", "e\u{301}")), (true, 1, 2));
    assert_eq!(characters(&named("\u{feff}a", "Ægir")), (true, 2, 4));
}

#[test]
fn a_refusal_has_zeros() {
    assert_eq!(characters(&named("policy", "\u{85}")), (false, 0, 0));
}

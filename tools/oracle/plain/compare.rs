//! Two sections held against each other, which the Rust does not have, in plain lines from the words of document 02's Slip 11: over the Rust's
//! vectors, by two ordered maps.

use crate::marks;
use crate::records::DecodedEvr0;
use answers::Answer;
use answers::refusal::{Kind, Refusal};
use std::collections::{BTreeMap, BTreeSet};

/// Kind, owner, scope and type: what propositions are matched on, and ordered by.
pub type Key = (Vec<u8>, u32, u32, u32);

/// 1 agreed, 2 contradicted, 3 first only, 4 second only.
pub type Verdict = u8;

/// Whose refusal it is.
#[derive(Debug, Clone, Copy, PartialEq, Eq)]
pub enum Whose {
    First,
    Second,
    Pair,
}

/// The propositions of two sections with their verdicts, in proposition order.
pub type List = Vec<(Key, Verdict)>;

/// Both are decoded, the first one's refusal going first; 74 source sets differ, after both are decoded, at the second's source set; then 61 at offset 0 if
/// the table of bytes, which has this room, is short.
pub fn compare(
    first: &Answer<DecodedEvr0>,
    second: &Answer<DecodedEvr0>,
    second_cursor: usize,
    room: usize,
) -> Result<List, (Whose, Refusal)> {
    let first = first.as_ref().map_err(|refusal| (Whose::First, *refusal))?;
    let second = second.as_ref().map_err(|refusal| (Whose::Second, *refusal))?;
    if first.source_set != second.source_set {
        return Err((Whose::Pair, added(74, source_set(second_cursor))));
    }
    let list = list(first, second);
    if room < list.len() {
        return Err((Whose::Pair, added(61, 0)));
    }
    Ok(list)
}

fn added(number: u8, offset: usize) -> Refusal {
    Refusal {
        kind: Kind::Added,
        number,
        offset,
    }
}

/// After the tag, the payload length, schema and flags.
fn source_set(cursor: usize) -> usize {
    cursor + 4 + 4 + 2 + 2
}

/// Each proposition of either section, once.
pub fn list(first: &DecodedEvr0, second: &DecodedEvr0) -> List {
    let (first, second) = (told(first), told(second));
    let keys: BTreeSet<&Key> = first.keys().chain(second.keys()).collect();
    keys.into_iter()
        .map(|key| (key.clone(), verdict(first.get(key), second.get(key))))
        .collect()
}

/// Agreed where it is authorised in both or in neither, contradicted, or in one section only.
fn verdict(first: Option<&bool>, second: Option<&bool>) -> Verdict {
    match (first, second) {
        (Some(first), Some(second)) if first == second => 1,
        (Some(_), Some(_)) => 2,
        (Some(_), None) => 3,
        (None, _) => 4,
    }
}

/// Of each proposition whether it is authorised.
fn told(section: &DecodedEvr0) -> BTreeMap<Key, bool> {
    let authorised = authorised(section, &marks::marks(section));
    let keys = section.propositions.iter().map(|proposition| {
        (
            proposition.kind.as_bytes().to_vec(),
            proposition.ast_owner_id,
            proposition.semantic_scope_id,
            proposition.type_obligation_id,
        )
    });
    keys.zip(authorised).collect()
}

/// Of each proposition, in their order, whether some proof of it has operation 1 and mark 1.
pub fn authorised(section: &DecodedEvr0, marks: &[u8]) -> Vec<bool> {
    let mut found = vec![false; section.propositions.len()];
    for (proof, mark) in section.proofs.iter().zip(marks) {
        if proof.authorized_operation == 1 && *mark == 1 {
            found[proof.proposition_index as usize] = true;
        }
    }
    found
}

/// How many are agreed, contradicted, in the first only, in the second only.
pub fn totals(list: &List) -> [usize; 4] {
    [1, 2, 3, 4].map(|verdict| list.iter().filter(|entry| entry.1 == verdict).count())
}

/// A lent table of so many bytes after a call: the verdicts and zeros past them; no verdict after a refusal.
pub fn lent(list: &[(Key, Verdict)], room: usize) -> Vec<u8> {
    let mut table: Vec<u8> = list.iter().map(|entry| entry.1).collect();
    table.resize(room, 0);
    table
}

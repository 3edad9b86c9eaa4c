//! The conditions of a comparison: what two sections are to each other, whose refusal is given and what stands beside it.

use super::Listed;
use crate::authorised_table::AUTHORISED;
use crate::compare_call::{Known, Pair};
use crate::tally::Outcome;
use answers::Answer;
use oracle::compare::{self as plain, Key, List, Whose};
use oracle::records::DecodedEvr0;

/// What two sections are to each other, whose refusal is given and what stands beside it, and how long the tables are.
pub const REACHABLE: [Outcome; 47] = [
    (0, NONE),
    (0, "agreed alone"),
    (0, "contradicted, the first authorised"),
    (0, "contradicted, the second authorised"),
    (0, "by operations alone it would be otherwise"),
    (0, "keys that differ in type alone, one in each section"),
    (0, "the first's last"),
    (0, "the second's last"),
    (0, "no key in both"),
    (0, ONE_FILE),
    (0, LONGER),
    (0, FOUR),
    (0, OTHER),
    (61, "the first's propositions"),
    (61, "the first's proofs"),
    (61, "the first's depths"),
    (61, "the first's marks"),
    (61, "the first's authorised"),
    (61, "the second's propositions"),
    (61, "the second's proofs"),
    (61, "the second's depths"),
    (61, "the second's marks"),
    (61, "the second's authorised"),
    (61, SHORT),
    (61, EMPTY),
    (69, BEFORE),
    (70, BEFORE),
    (74, "alone"),
    (74, "beside a short table"),
    (1, FIRST),
    (10, FIRST),
    (16, FIRST),
    (20, FIRST),
    (25, FIRST),
    (29, FIRST),
    (1, SECOND),
    (10, SECOND),
    (16, SECOND),
    (20, SECOND),
    (25, SECOND),
    (29, SECOND),
    (16, "the first's, and the second is refused too"),
    (10, "the second's, and the source sets differ"),
    (10, "the second's, and the table is short"),
    (0, AUTHORISED),
    (61, "authorised alone one short"),
    (0, "authorised longer than propositions"),
];

/// Those of inputs that are made apart.
pub const APART: [Outcome; 7] = [
    (0, FOUR),
    (0, OTHER),
    (69, BEFORE),
    (70, BEFORE),
    (16, "the first's, and the second is refused too"),
    (10, "the second's, and the source sets differ"),
    (10, "the second's, and the table is short"),
];

pub const NONE: &str = "no proposition";
pub const ONE_FILE: &str = "both in one file";
pub const LONGER: &str = "a longer table";
pub const FOUR: &str = "by the four loaded";
pub const OTHER: &str = "by other rules";
pub const SHORT: &str = "the list, one short";
pub const EMPTY: &str = "the list, no entry";
pub const BEFORE: &str = "before both sections";
pub const FIRST: &str = "the first's";
pub const SECOND: &str = "the second's";

/// What two sections are to each other.
pub fn outcome(pair: &Pair, sections: &[Answer<Known>; 2], list: &Listed) -> Outcome {
    let list = match list {
        Ok(list) => list,
        Err((whose, refusal)) => {
            let whose = match whose {
                Whose::First => FIRST,
                Whose::Second => SECOND,
                Whose::Pair => "alone",
            };
            return (refusal.number, whose);
        }
    };
    let [Ok(first), Ok(second)] = sections else {
        unreachable!("both were decoded");
    };
    let has = |verdict| list.iter().any(|entry| entry.1 == verdict);
    let types_alone = list.windows(2).any(|two| {
        let [(one, first), (other, second)] = two else {
            return false;
        };
        (&one.0, one.1, one.2) == (&other.0, other.1, other.2) && first + second == 3 + 4
    });
    let condition = if list.is_empty() {
        NONE
    } else if pair.is_one_file() {
        ONE_FILE
    } else if *list != plain::list(&by_operations(first), &by_operations(second)) {
        "by operations alone it would be otherwise"
    } else if types_alone {
        "keys that differ in type alone, one in each section"
    } else if !has(1) && !has(2) {
        "no key in both"
    } else if has(2) {
        match authorised_of(first, list) {
            true => "contradicted, the first authorised",
            false => "contradicted, the second authorised",
        }
    } else {
        match list.last() {
            Some((_, 3)) => "the first's last",
            Some((_, 4)) => "the second's last",
            _ if has(3) || has(4) => "agreed, and one section's between",
            _ => "agreed alone",
        }
    };
    (0, condition)
}

/// Whether the first of those contradicted is authorised in a section.
fn authorised_of(section: &Known, list: &List) -> bool {
    let contradicted = list.iter().find(|entry| entry.1 == 2);
    let (key, _) = contradicted.expect("one that is contradicted");
    let mut all = section.decoded.propositions.iter();
    let place = all.position(|p| key_of(p) == *key);
    section.authorised[place.expect("a proposition of the section")]
}

pub fn key_of(p: &oracle::records::Proposition) -> Key {
    let kind = p.kind.as_bytes().to_vec();
    let numbers = [p.ast_owner_id, p.semantic_scope_id, p.type_obligation_id];
    (kind, numbers[0], numbers[1], numbers[2])
}

/// The section with all witnesses positive, in which every operation authorises: so document 01's wording had it.
fn by_operations(section: &Known) -> DecodedEvr0 {
    let mut decoded = section.decoded.clone();
    for witness in &mut decoded.witnesses {
        witness.polarity = 1;
    }
    decoded
}

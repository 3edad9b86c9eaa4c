//! That the maps have every message of the sources, and no other: the string literals are taken from the sources' text.

use super::{BLOCK, FUNCTIONS, Message, SECTION};
use std::collections::BTreeSet;

const EVR0: &str = include_str!(concat!(env!("OUT_DIR"), "/evr0.rs"));
const SEMCODE_DECODE: &str = include_str!(concat!(env!("OUT_DIR"), "/semcode_decode.rs"));

/// Literals that are no messages: what an `expect` would say, tags and rules' names.
const OTHERS: [&str; 9] = [
    "fixed read",
    "is_dbg0 implies dbg_tag_end is Some",
    "is_own0 implies own_tag_end is Some",
    "EVR0",
    "DBG0",
    "POS-WITNESS-1",
    "NEG-WITNESS-1",
    "JOIN-SAME-P-1",
    "OP-T-ONLY-1",
];

/// The number of messages in the two sources, each of which is mapped; or what is missing.
pub fn check() -> Result<usize, String> {
    let body = SEMCODE_DECODE
        .split_once("\nfn parse_string_table_debug_and_ownership(")
        .and_then(|(_, rest)| rest.split_once("    Ok(StringTableDebugOwnershipParse {\n"))
        .ok_or("the block function is not found")?
        .0;
    let steps = SEMCODE_DECODE
        .split_once("\npub fn functions_from(")
        .ok_or("the loop over functions is not found")?
        .1;
    Ok(same(EVR0, SECTION)? + same(body, BLOCK)? + same(steps, FUNCTIONS)?)
}

fn same(source: &str, map: &[Message]) -> Result<usize, String> {
    let found: BTreeSet<String> = literals(source)
        .into_iter()
        .filter(|text| !OTHERS.contains(&text.as_str()))
        .map(|text| text.split('{').next().unwrap_or_default().to_string())
        .collect();
    let mapped: BTreeSet<String> = map.iter().map(|(text, _)| text.to_string()).collect();
    if mapped.len() != map.len() {
        return Err("a message is mapped twice".into());
    }
    match found.symmetric_difference(&mapped).next() {
        Some(text) => Err(format!(
            "in the source or in the map, not in both: {text:?}"
        )),
        None => Ok(found.len()),
    }
}

/// The string literals of a Rust source without block comments, raw strings and quotes as characters, which the sources do not have.
fn literals(source: &str) -> Vec<String> {
    let mut all = Vec::new();
    let mut rest = source;
    while let Some(at) = rest.find(['"', '/']) {
        rest = &rest[at..];
        if rest.starts_with("//") {
            rest = &rest[rest.find('\n').unwrap_or(rest.len())..];
        } else if rest.starts_with('/') {
            rest = &rest[1..];
        } else {
            let end = 1 + rest[1..].find('"').expect("a closed string");
            all.push(joined(&rest[1..end]));
            rest = &rest[end + 1..];
        }
    }
    all
}

/// A literal's lines, joined where a backslash ends them.
fn joined(literal: &str) -> String {
    let mut lines = literal.split("\\\n");
    let mut text = lines.next().unwrap_or_default().to_string();
    for line in lines {
        text.push_str(line.trim_start());
    }
    text
}

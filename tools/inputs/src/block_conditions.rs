//! Which condition of document 01's table a block met. Only for counts and for picking inputs; no comparison rests on it.

use answers::Answer;
use answers::block::Block;
use answers::refusal::{Kind, Refusal};

/// Every condition that a block can meet, but for 61.
pub const REACHABLE: [(u8, &str); 39] = [
    (30, ""),
    (31, ""),
    (32, ""),
    (33, ""),
    (34, "string cut"),
    (34, "string not UTF-8"),
    (34, "place not known, the offset is held"),
    (35, ""),
    (36, ""),
    (37, ""),
    (38, ""),
    (39, ""),
    (40, ""),
    (41, ""),
    (42, ""),
    (43, ""),
    (44, ""),
    (45, ""),
    (46, ""),
    (47, ""),
    (48, ""),
    (49, ""),
    (50, ""),
    (51, ""),
    (52, ""),
    (53, ""),
    (54, ""),
    (55, ""),
    (56, ""),
    (57, ""),
    (58, ""),
    (59, ""),
    (60, ""),
    (71, "OWN0 absent"),
    (71, "tag not found"),
    (72, "count cut"),
    (72, "family cut"),
    (72, "family unknown"),
    (73, ""),
];

/// The condition behind a refusal, where its number stands for two.
pub fn condition(code: &[u8], base: usize, refusal: &Refusal) -> &'static str {
    match refusal.number {
        34 if refusal.offset == usize::MAX => "place not known, the offset is held",
        34 if string_is_cut(code, refusal.offset - base) => "string cut",
        34 => "string not UTF-8",
        71 if refusal.kind == Kind::Ownership => "OWN0 absent",
        71 => "tag not found",
        72 if refusal.offset == usize::MAX => "place not known, the offset is held",
        72 => signature_condition(code, refusal.offset - base),
        _ => "",
    }
}

/// The tag ends where the count is cut; a family is cut at the end.
fn signature_condition(code: &[u8], at: usize) -> &'static str {
    match code.get(at) {
        _ if code[..at].ends_with(b"SIG0") => "count cut",
        None => "family cut",
        Some(_) => "family unknown",
    }
}

/// Whether the string that starts at a place passes the end.
fn string_is_cut(code: &[u8], start: usize) -> bool {
    let length = u16::from_le_bytes([code[start - 2], code[start - 1]]);
    start + length as usize > code.len()
}

/// What an accepted block's revision allows.
pub fn accepted(revision: u16) -> &'static str {
    match revision {
        0..20 => "below revision 20",
        20 => "revision 20",
        21 => "revision 21",
        _ => "from revision 22",
    }
}

/// What is counted of signatures beside the conditions: families, how many there are, and a signature that is not read.
pub const SIGNATURES: [&str; 9] = [
    "family 0",
    "family 1",
    "family 15",
    "family 16",
    "family 255",
    "4,095 families",
    "4,096 families",
    "4,097 families",
    "SIG0 behind a block below revision 20",
];

/// Those of them that an input has, by the Rust's answer.
pub fn signatures(
    code: &[u8],
    base: usize,
    revision: u16,
    answer: &Answer<Block>,
) -> Vec<&'static str> {
    match answer {
        Ok(block) if revision < 20 => {
            let behind = code[block.layout.instructions..].starts_with(b"SIG0");
            Vec::from_iter(behind.then_some("SIG0 behind a block below revision 20"))
        }
        Ok(block) => {
            let first = block.families.contains(&1).then_some("family 1");
            let last = block.families.contains(&15).then_some("family 15");
            let many = match block.families.len() {
                4095 => Some("4,095 families"),
                4096 => Some("4,096 families"),
                _ => None,
            };
            [first, last, many].into_iter().flatten().collect()
        }
        Err(refusal) if refusal.offset == usize::MAX => Vec::new(),
        Err(refusal) => {
            let at = refusal.offset - base;
            Vec::from_iter(refused_signature(code, at, refusal.number))
        }
    }
}

/// An unknown family stands where it is refused, and a count that is too large in front of that.
fn refused_signature(code: &[u8], at: usize, number: u8) -> Option<&'static str> {
    match number {
        72 if signature_condition(code, at) == "family unknown" => match code[at] {
            0 => Some("family 0"),
            16 => Some("family 16"),
            255 => Some("family 255"),
            _ => None,
        },
        73 if code[at - 2..at] == 4097u16.to_le_bytes() => Some("4,097 families"),
        _ => None,
    }
}

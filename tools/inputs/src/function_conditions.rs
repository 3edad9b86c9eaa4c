//! Which condition a file of functions met. Only for counts and for picking inputs; no comparison rests on it.

use answers::refusal::Refusal;

/// A refusal of a block that is not the first function's.
const LATER: &str = "in a function after the first";

/// The lent tables in the order of 61's conditions, each with the first function, one between and the last too many for it.
pub const SHORT: [[&str; 3]; 5] = [
    [
        "functions, the first, no Rust side",
        "functions, one between, no Rust side",
        "functions, the last, no Rust side",
    ],
    [
        "strings of the first, no Rust side",
        "strings of one between, no Rust side",
        "strings of the last, no Rust side",
    ],
    [
        "symbols of the first, no Rust side",
        "symbols of one between, no Rust side",
        "symbols of the last, no Rust side",
    ],
    [
        "paths of the first, no Rust side",
        "paths of one between, no Rust side",
        "paths of the last, no Rust side",
    ],
    [
        "families of the first, no Rust side",
        "families of one between, no Rust side",
        "families of the last, no Rust side",
    ],
];

/// Every condition that has to be met often: those of a head, each refusal of a later block, and 61.
pub const REACHABLE: [(u8, &str); 57] = [
    (30, LATER),
    (31, LATER),
    (32, LATER),
    (33, LATER),
    (34, LATER),
    (35, LATER),
    (36, LATER),
    (37, LATER),
    (38, LATER),
    (39, LATER),
    (40, LATER),
    (41, LATER),
    (42, LATER),
    (43, LATER),
    (44, LATER),
    (45, LATER),
    (46, LATER),
    (47, LATER),
    (48, LATER),
    (49, LATER),
    (50, LATER),
    (51, LATER),
    (52, LATER),
    (53, LATER),
    (54, LATER),
    (55, LATER),
    (56, LATER),
    (57, LATER),
    (58, LATER),
    (59, LATER),
    (60, LATER),
    (61, SHORT[0][0]),
    (61, SHORT[0][1]),
    (61, SHORT[0][2]),
    (61, SHORT[1][0]),
    (61, SHORT[1][1]),
    (61, SHORT[1][2]),
    (61, SHORT[2][0]),
    (61, SHORT[2][1]),
    (61, SHORT[2][2]),
    (61, SHORT[3][0]),
    (61, SHORT[3][1]),
    (61, SHORT[3][2]),
    (61, SHORT[4][0]),
    (61, SHORT[4][1]),
    (61, SHORT[4][2]),
    (63, "name length cut"),
    (63, "code length cut"),
    (63, "block past the end"),
    (64, "name empty"),
    (64, "name too long"),
    (64, "name cut"),
    (64, "name not UTF-8"),
    (65, ""),
    (71, LATER),
    (72, LATER),
    (73, LATER),
];

/// The condition behind a refusal; none where its offset is not one of the format's.
pub fn condition(file: &[u8], cursor: usize, refusal: &Refusal) -> &'static str {
    walked(file, cursor, refusal).unwrap_or("")
}

/// The heads are walked up to the one that has the offset, or whose block has.
fn walked(file: &[u8], cursor: usize, refusal: &Refusal) -> Option<&'static str> {
    let (mut at, mut count) = (cursor, 0);
    loop {
        let offset = refusal.offset;
        match refusal.number {
            65 => return None,
            63 if offset == at => return Some("name length cut"),
            64 if offset == at + 2 => return name_condition(file, at),
            _ => (),
        }
        let name = at + 2 + number_at(file, at, 2)?;
        if refusal.number == 63 && offset == name {
            return Some("code length cut");
        }
        let end = name + 4 + number_at(file, name, 4)?;
        if refusal.number == 63 && offset == name + 4 {
            return Some("block past the end");
        }
        if !matches!(refusal.number, 63 | 64) && offset <= end {
            return (count > 0).then_some(LATER);
        }
        (at, count) = (end, count + 1);
    }
}

fn name_condition(file: &[u8], at: usize) -> Option<&'static str> {
    Some(match number_at(file, at, 2)? {
        0 => "name empty",
        1025.. => "name too long",
        length if at + 2 + length > file.len() => "name cut",
        _ => "name not UTF-8",
    })
}

/// A number of so many bytes, the lowest first.
fn number_at(file: &[u8], at: usize, width: usize) -> Option<usize> {
    let bytes = file.get(at..at + width)?;
    Some(
        bytes
            .iter()
            .rev()
            .fold(0, |sum, byte| sum * 256 + *byte as usize),
    )
}

/// What an accepted file has.
pub fn accepted(functions: usize) -> &'static str {
    match functions {
        0 => "no function",
        1 => "one function",
        2..1023 => "several functions",
        _ => "1,023 or 1,024 functions",
    }
}

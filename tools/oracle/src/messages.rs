//! The Rust's messages and document 01's numbers.

use crate::evr0::{Evr0Error, Evr0ErrorKind};
use crate::semcode_decode::DecodeError;
use answers::refusal::{Kind, Refusal};

mod literals;
pub use literals::check;

/// A message, or a format's text before its first value, and document 01's number. 0: a failed reservation or a sum past 64 bits, which
/// the port does not have.
type Message = (&'static str, u8);

/// Those of evr0.rs, in its order.
const SECTION: &[Message] = &[
    ("EVR0 offset overflow", 5),
    ("EVR0 truncated field", 5),
    ("EVR0 empty or overlong text field", 6),
    ("EVR0 invalid UTF-8", 7),
    ("EVR0 control character in text field", 8),
    ("EVR0 text reservation failed", 0),
    ("EVR0 nonzero reserved bytes", 9),
    ("missing mandatory EVR0 section", 1),
    ("EVR0 header overflow", 0),
    ("EVR0 length truncated", 2),
    ("EVR0 payload exceeds bounded section budget or is empty", 3),
    ("EVR0 payload end overflow", 0),
    ("EVR0 payload truncated", 4),
    ("unsupported EVR0 schema", 10),
    ("EVR0 flags must be zero", 11),
    ("EVR0 table count exceeds limit", 12),
    ("EVR0 table size overflow", 0),
    ("EVR0 table sum overflow", 0),
    ("EVR0 count exceeds remaining payload", 13),
    ("EVR0 depth tracking size overflow", 0),
    ("EVR0 depth allocation budget overflow", 0),
    ("EVR0 allocation size overflow", 0),
    ("EVR0 allocation sum overflow", 0),
    ("EVR0 allocation budget exceeded", 14),
    ("EVR0 work units overflow", 0),
    ("EVR0 work budget exceeded", 15),
    ("EVR0 proposition reservation failed", 0),
    ("EVR0 proposition table not strictly ordered", 16),
    ("EVR0 proof reservation failed", 0),
    ("EVR0 proof identity or order invalid", 17),
    ("EVR0 witness or parent ranges are not contiguous", 18),
    ("EVR0 witness range overflow", 0),
    ("EVR0 parent range overflow", 0),
    ("EVR0 proof range exceeds table", 19),
    ("EVR0 unknown proof rule", 20),
    ("EVR0 invalid proof rule shape", 21),
    ("EVR0 witness or parent table not fully owned", 22),
    ("EVR0 witness reservation failed", 0),
    ("EVR0 witness identity, polarity or source span invalid", 23),
    ("EVR0 parent reservation failed", 0),
    ("EVR0 payload has trailing bytes", 24),
    ("EVR0 depth reservation failed", 0),
    ("EVR0 invalid or noncanonical parent reference", 25),
    ("EVR0 parent identity or authority mismatch", 26),
    ("EVR0 derivation depth limit exceeded", 27),
    ("EVR0 witness and proof proposition mismatch", 28),
    ("EVR0 witness polarity contradicts rule", 29),
];

/// Those of `parse_string_table_debug_and_ownership`, in its order.
const BLOCK: &[Message] = &[
    ("missing string table header", 30),
    ("too many strings in function: ", 31),
    ("missing string length", 32),
    ("string too long in function string table", 33),
    ("invalid utf8 in string table", 34),
    ("missing debug symbol count", 35),
    ("too many debug symbols: ", 36),
    ("missing debug pc", 37),
    ("missing debug line", 38),
    ("missing debug col", 39),
    ("missing ownership path count", 40),
    ("missing ownership event kind", 41),
    ("missing borrow activation mode", 42),
    ("missing borrow executable anchor", 43),
    ("unrecognized borrow activation mode", 44),
    ("missing write execution mode", 45),
    ("missing write executable anchor", 46),
    ("unrecognized write execution mode", 47),
    ("missing ownership path root", 48),
    ("missing ownership path component count", 49),
    ("missing ownership path component kind", 50),
    ("missing ownership tuple index", 51),
    ("missing ownership field symbol", 52),
    (
        "Write(AdtPayload) is not an admitted ownership path under any header revision",
        53,
    ),
    (
        "Borrow(AdtPayload) requires a header at or above SEMCODE_ADT_BORROW_OWNERSHIP_MIN_REVISION",
        54,
    ),
    ("missing ownership adt payload variant", 55),
    ("missing ownership adt payload index", 56),
    (
        "SequenceIndexStatic requires a header at or above SEMCODE_SEQUENCE_OWNERSHIP_MIN_REVISION",
        57,
    ),
    ("missing ownership sequence index", 58),
    ("unsupported ownership path component kind", 59),
    ("unsupported ownership event kind", 60),
    (
        "header requires per-function ownership-path metadata but no OWN0 section is present",
        71,
    ),
    ("missing SIG0 section tag", 71),
    ("missing parameter count", 72),
    ("too many callable-signature parameters: ", 73),
    ("missing parameter family tag", 72),
    ("unknown parameter family tag", 72),
];

/// Those of the loop over functions, in its order.
const FUNCTIONS: &[Message] = &[
    ("too many functions (>", 65),
    ("missing function name length", 63),
    ("empty function name", 64),
    ("function name too long", 64),
    ("invalid utf8 in function name", 64),
    ("missing function code length", 63),
    ("function code out of bounds", 63),
];

/// Whether a message is a format's text, to which values are added.
fn goes_on(text: &str) -> bool {
    text.ends_with(": ") || text.ends_with("(>")
}

fn number(maps: &[&[Message]], message: &str) -> u8 {
    let found = maps
        .iter()
        .flat_map(|map| map.iter())
        .find(|(text, _)| message == *text || goes_on(text) && message.starts_with(text));
    match found {
        Some((_, number)) if *number != 0 => *number,
        _ => panic!("a message without a number: {message:?}"),
    }
}

pub fn of_section(error: Evr0Error) -> Refusal {
    let kind = match error.kind {
        Evr0ErrorKind::Invalid => Kind::Invalid,
        Evr0ErrorKind::ResourceLimit => Kind::Limit,
    };
    Refusal {
        kind,
        number: number(&[SECTION], error.message),
        offset: error.offset,
    }
}

/// Of the block function or of the loop over functions.
pub fn of_block(error: DecodeError) -> Refusal {
    let (kind, offset, message) = match &error {
        DecodeError::InvalidStringTable { offset, msg } => (Kind::Strings, *offset, *msg),
        DecodeError::InvalidDebugSection { offset, msg } => (Kind::Debug, *offset, *msg),
        DecodeError::InvalidOwnershipSection { offset, msg } => (Kind::Ownership, *offset, *msg),
        DecodeError::InvalidSignatureSection { offset, msg } => (Kind::Signature, *offset, *msg),
        DecodeError::ResourceLimit { offset, msg } => (Kind::Limit, *offset, msg.as_str()),
        DecodeError::TruncatedFunction { offset, msg } => (Kind::Truncated, *offset, *msg),
        DecodeError::InvalidFunctionName { offset, msg } => (Kind::Name, *offset, *msg),
        _ => panic!("not an error of functions: {error:?}"),
    };
    Refusal {
        kind,
        number: number(&[BLOCK, FUNCTIONS], message),
        offset,
    }
}

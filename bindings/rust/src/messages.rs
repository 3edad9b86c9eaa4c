//! Document 01's numbers and the messages of skulmakov-oss/Semantic, which has none of 69, 70 and 74 to 76.

/// Those of 31, 36 and 73 go on with the count; 63, 64 and 72 have three each, 71 two. 66 to 70 and 74 to 76 are not the original's.
const MESSAGES: [(u8, &str); 81] = [
    (1, "missing mandatory EVR0 section"),
    (2, "EVR0 length truncated"),
    (3, "EVR0 payload exceeds bounded section budget or is empty"),
    (4, "EVR0 payload truncated"),
    (5, "EVR0 truncated field"),
    (6, "EVR0 empty or overlong text field"),
    (7, "EVR0 invalid UTF-8"),
    (8, "EVR0 control character in text field"),
    (9, "EVR0 nonzero reserved bytes"),
    (10, "unsupported EVR0 schema"),
    (11, "EVR0 flags must be zero"),
    (12, "EVR0 table count exceeds limit"),
    (13, "EVR0 count exceeds remaining payload"),
    (14, "EVR0 allocation budget exceeded"),
    (15, "EVR0 work budget exceeded"),
    (16, "EVR0 proposition table not strictly ordered"),
    (17, "EVR0 proof identity or order invalid"),
    (18, "EVR0 witness or parent ranges are not contiguous"),
    (19, "EVR0 proof range exceeds table"),
    (20, "EVR0 unknown proof rule"),
    (21, "EVR0 invalid proof rule shape"),
    (22, "EVR0 witness or parent table not fully owned"),
    (23, "EVR0 witness identity, polarity or source span invalid"),
    (24, "EVR0 payload has trailing bytes"),
    (25, "EVR0 invalid or noncanonical parent reference"),
    (26, "EVR0 parent identity or authority mismatch"),
    (27, "EVR0 derivation depth limit exceeded"),
    (28, "EVR0 witness and proof proposition mismatch"),
    (29, "EVR0 witness polarity contradicts rule"),
    (30, "missing string table header"),
    (31, "too many strings in function: "),
    (32, "missing string length"),
    (33, "string too long in function string table"),
    (34, "invalid utf8 in string table"),
    (35, "missing debug symbol count"),
    (36, "too many debug symbols: "),
    (37, "missing debug pc"),
    (38, "missing debug line"),
    (39, "missing debug col"),
    (40, "missing ownership path count"),
    (41, "missing ownership event kind"),
    (42, "missing borrow activation mode"),
    (43, "missing borrow executable anchor"),
    (44, "unrecognized borrow activation mode"),
    (45, "missing write execution mode"),
    (46, "missing write executable anchor"),
    (47, "unrecognized write execution mode"),
    (48, "missing ownership path root"),
    (49, "missing ownership path component count"),
    (50, "missing ownership path component kind"),
    (51, "missing ownership tuple index"),
    (52, "missing ownership field symbol"),
    (
        53,
        "Write(AdtPayload) is not an admitted ownership path under any header revision",
    ),
    (
        54,
        "Borrow(AdtPayload) requires a header at or above SEMCODE_ADT_BORROW_OWNERSHIP_MIN_REVISION",
    ),
    (55, "missing ownership adt payload variant"),
    (56, "missing ownership adt payload index"),
    (
        57,
        "SequenceIndexStatic requires a header at or above SEMCODE_SEQUENCE_OWNERSHIP_MIN_REVISION",
    ),
    (58, "missing ownership sequence index"),
    (59, "unsupported ownership path component kind"),
    (60, "unsupported ownership event kind"),
    (63, NAME_LENGTH_CUT),
    (63, CODE_LENGTH_CUT),
    (63, CODE_OUT_OF_BOUNDS),
    (64, NAME_EMPTY),
    (64, NAME_TOO_LONG),
    (64, NAME_NOT_UTF8),
    (65, "too many functions (>1024)"),
    (66, "path of more than 16 components"),
    (
        67,
        "path touches a lock of another owner, and either is a write",
    ),
    (68, "more than 256 locks"),
    (
        69,
        "count or rule of a rule table outside its bounds or cut, or bytes left over",
    ),
    (70, "rule's name given twice"),
    (71, OWNERSHIP_ABSENT),
    (71, SIGNATURE_ABSENT),
    (72, PARAMETER_COUNT_CUT),
    (72, FAMILY_CUT),
    (72, FAMILY_UNKNOWN),
    (73, "too many callable-signature parameters: "),
    (74, "source sets differ"),
    (
        75,
        "number of a column in more groups than needed, or too large for its field",
    ),
    (76, "columns cut, or bytes left over after them"),
];

pub const NAME_LENGTH_CUT: &str = "missing function name length";
pub const CODE_LENGTH_CUT: &str = "missing function code length";
pub const CODE_OUT_OF_BOUNDS: &str = "function code out of bounds";
pub const NAME_EMPTY: &str = "empty function name";
pub const NAME_TOO_LONG: &str = "function name too long";
pub const NAME_NOT_UTF8: &str = "invalid utf8 in function name";
pub const OWNERSHIP_ABSENT: &str =
    "header requires per-function ownership-path metadata but no OWN0 section is present";
pub const SIGNATURE_ABSENT: &str = "missing SIG0 section tag";
pub const PARAMETER_COUNT_CUT: &str = "missing parameter count";
pub const FAMILY_CUT: &str = "missing parameter family tag";
pub const FAMILY_UNKNOWN: &str = "unknown parameter family tag";

/// The message of a number that has one; that of 31, 36 and 73 up to the count.
pub fn message(number: u8) -> &'static str {
    MESSAGES
        .iter()
        .find(|(known, _)| *known == number)
        .unwrap_or_else(|| panic!("no decoder refuses with {number} here"))
        .1
}

/// The number of a message.
pub fn number(message: &str) -> Option<u8> {
    MESSAGES
        .iter()
        .find(|(_, text)| message == *text || text.ends_with(": ") && message.starts_with(text))
        .map(|(number, _)| *number)
}

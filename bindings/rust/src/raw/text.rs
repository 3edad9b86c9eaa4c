//! Fields, fixed byte strings and texts: crates/falgnust/src/{refusal,field,tag,utf8,text}.rt

/// A refusal: its kind (0 Invalid, 1 Limit, 2 Strings, 3 Debug, 4 Ownership, 5 Added, as document 01 has them; 6 Truncated, 7 Name, 8 Signature), its
/// number (0 where nothing is refused) and its offset.
#[repr(C)]
#[derive(Debug, Default, Clone, Copy, PartialEq, Eq)]
pub struct Refusal {
    /// 0 to 8.
    pub kind: u8,
    /// 1 to 73; 0 for none.
    pub number: u8,
    /// Where: a place in the file, or base plus place in the block.
    pub offset: usize,
}

/// A field; all zeros where it is cut.
#[repr(C)]
#[derive(Debug, Default, Clone, Copy, PartialEq, Eq)]
pub struct Field {
    /// Whether the field is there.
    pub whole: bool,
    /// Its value, of 1, 2 or 4 bytes.
    pub value: u32,
    /// The place after it.
    pub next: usize,
}

/// What some bytes are.
#[repr(C)]
#[derive(Debug, Default, Clone, Copy, PartialEq, Eq)]
pub struct Scanned {
    /// 0 not UTF-8, 1 text, 2 text with a control character.
    pub answer: u8,
    /// The number of characters.
    pub chars: usize,
}

/// What the bytes at a place are; all zeros where they pass the end.
#[repr(C)]
#[derive(Debug, Default, Clone, Copy, PartialEq, Eq)]
pub struct Utf8 {
    /// Whether the bytes are there.
    pub whole: bool,
    /// Whether they are UTF-8.
    pub text: bool,
    /// Whether a control character is among them.
    pub control: bool,
    /// The number of characters.
    pub chars: usize,
    /// The place after them.
    pub next: usize,
}

/// A text with its own answer.
#[repr(C)]
#[derive(Debug, Default, Clone, Copy, PartialEq, Eq)]
pub struct Text {
    /// Whether there is a text.
    pub accepted: bool,
    /// Why not.
    pub refusal: Refusal,
    /// Where its bytes start.
    pub start: usize,
    /// How many bytes it has.
    pub len: usize,
    /// How many characters it has.
    pub chars: usize,
    /// The place after it.
    pub next: usize,
}

unsafe extern "C" {
    /// A field of 1 byte.
    pub fn falgnust_read_u8(bytes: *const u8, bytes_len: usize, at: usize) -> Field;
    /// A field of 2 bytes, the lowest first.
    pub fn falgnust_read_u16_le(bytes: *const u8, bytes_len: usize, at: usize) -> Field;
    /// A field of 4 bytes, the lowest first.
    pub fn falgnust_read_u32_le(bytes: *const u8, bytes_len: usize, at: usize) -> Field;
    /// Whether a fixed byte string stands at a place.
    pub fn falgnust_tag_at(
        bytes: *const u8,
        bytes_len: usize,
        at: usize,
        tag: *const u8,
        tag_len: usize,
    ) -> bool;
    /// Whether bytes are UTF-8, and hold a control character.
    pub fn falgnust_scan(bytes: *const u8, bytes_len: usize) -> Scanned;
    /// The same of so many bytes at a place.
    pub fn falgnust_read_utf8(bytes: *const u8, bytes_len: usize, at: usize, len: usize) -> Utf8;
    /// A text of a section: a 2-byte length from 1 to 4,096 and that many bytes of UTF-8 without control characters.
    pub fn falgnust_read_text(bytes: *const u8, bytes_len: usize, at: usize) -> Text;
    /// A string of a block: a 2-byte length up to 1,024 and that many bytes of UTF-8.
    pub fn falgnust_read_string(bytes: *const u8, bytes_len: usize, at: usize) -> Text;
}

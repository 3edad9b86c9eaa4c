//! Fields and texts.

/// The value and the place after it; none where the field is cut.
pub type Field = Option<(u32, usize)>;

/// What well-formed bytes are.
#[derive(Debug, Clone, Copy, PartialEq, Eq)]
pub struct Scanned {
    pub chars: usize,
    pub control: bool,
}

/// Where a text's bytes start, how many they are, its number of characters, and the place after it.
#[derive(Debug, Clone, Copy, PartialEq, Eq)]
pub struct Span {
    pub start: usize,
    pub len: usize,
    pub chars: usize,
    pub next: usize,
}

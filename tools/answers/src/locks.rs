//! Locks.

/// A source set.
pub type Source = [u8; 32];

#[derive(Debug, Clone, PartialEq, Eq)]
pub struct Lock {
    pub owner: u32,
    pub write: bool,
    pub root: u32,
    pub source: Source,
    pub parts: Vec<Part>,
}

/// A component by its kind's byte, and its one or two numbers.
#[derive(Debug, Clone, Copy, PartialEq, Eq)]
pub struct Part {
    pub kind: u8,
    pub first: u32,
    pub second: u16,
}

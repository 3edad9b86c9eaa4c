//! The functions of a file. Places are places in the file, but for those in a block.

use crate::block::Block;
use crate::text::Span;

/// A function's head: its name, and where its block stands.
#[derive(Debug, Clone, Copy, PartialEq, Eq)]
pub struct Head {
    pub name: Span,
    pub code: usize,
    pub size: usize,
}

impl Head {
    /// The place after the function.
    pub fn next(&self) -> usize {
        self.code + self.size
    }
}

#[derive(Debug, Clone, PartialEq, Eq)]
pub struct Function {
    /// The place of the name's length.
    pub start: usize,
    pub head: Head,
    pub name: String,
    pub block: Block,
}

#[derive(Debug, Clone, PartialEq, Eq)]
pub struct File {
    pub functions: Vec<Function>,
    /// After the functions.
    pub cursor: usize,
}

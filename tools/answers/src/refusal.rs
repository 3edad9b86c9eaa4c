//! Refusals as document 01 has them.

use std::fmt;

#[derive(Debug, Clone, Copy, PartialEq, Eq)]
pub enum Kind {
    Invalid,
    Limit,
    Strings,
    Debug,
    Ownership,
    Added,
    Truncated,
    Name,
    Signature,
}

impl Kind {
    pub const ALL: [Kind; 9] = [
        Kind::Invalid,
        Kind::Limit,
        Kind::Strings,
        Kind::Debug,
        Kind::Ownership,
        Kind::Added,
        Kind::Truncated,
        Kind::Name,
        Kind::Signature,
    ];
}

#[derive(Debug, Clone, Copy, PartialEq, Eq)]
pub struct Refusal {
    pub kind: Kind,
    pub number: u8,
    pub offset: usize,
}

impl fmt::Display for Refusal {
    fn fmt(&self, f: &mut fmt::Formatter) -> fmt::Result {
        write!(f, "refused {:?} {} {}", self.kind, self.number, self.offset)
    }
}

//! The tables that are lent. Few entries are lent first; where a count is more, and the call refuses with 61, it is made again with as many as
//! the counts say. So no answer is 61.

use crate::calls::{self, SectionTables};
use crate::raw::Refusal;
use crate::read::Read;

/// Tables of a few entries.
#[derive(Default)]
pub struct Few {
    pub propositions: [u64; 8],
    pub proofs: [u64; 12],
    depths: [u64; 12],
}

impl Few {
    #[inline]
    pub fn lent(&mut self) -> SectionTables<'_> {
        SectionTables {
            propositions: &mut self.propositions,
            proofs: &mut self.proofs,
            depths: &mut self.depths,
        }
    }
}

/// Tables as long as the counts.
#[derive(Default)]
pub struct Counted {
    pub propositions: Vec<u64>,
    pub proofs: Vec<u64>,
    depths: Vec<u64>,
}

impl Counted {
    /// The four counts, of 4 bytes each, end where 61 stands.
    pub fn new(bytes: &[u8], refusal: Refusal) -> Self {
        let count =
            |before: usize| calls::read_u32_le(bytes, refusal.offset - before).value as usize;
        let (propositions, proofs) = (count(16), count(12));
        Counted {
            propositions: vec![0; propositions],
            proofs: vec![0; proofs],
            depths: vec![0; proofs],
        }
    }

    pub fn lent(&mut self) -> SectionTables<'_> {
        SectionTables {
            propositions: &mut self.propositions,
            proofs: &mut self.proofs,
            depths: &mut self.depths,
        }
    }
}

/// Tables that no section of so many bytes has more entries for: a proposition takes 15 bytes at least, and a proof 35.
pub struct Fitted {
    propositions: Vec<u64>,
    proofs: Vec<u64>,
    depths: Vec<u64>,
}

impl Fitted {
    pub fn new(section: usize) -> Self {
        Fitted {
            propositions: vec![0; section / 15],
            proofs: vec![0; section / 35],
            depths: vec![0; section / 35],
        }
    }

    pub fn lent(&mut self) -> SectionTables<'_> {
        SectionTables {
            propositions: &mut self.propositions,
            proofs: &mut self.proofs,
            depths: &mut self.depths,
        }
    }
}

/// The answer of a call that lends tables.
pub fn lend<T>(bytes: &[u8], call: impl Fn(SectionTables) -> Read<T>) -> Read<T> {
    match call(Few::default().lent()) {
        Err(refusal) if refusal.number == 61 => call(Counted::new(bytes, refusal).lent()),
        answer => answer,
    }
}

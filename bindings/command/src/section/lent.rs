//! The tables that are lent for a section that was decoded: as long as its counts.

use falgnust::calls::{self, SectionTables};
use falgnust::evr0::DecodedEvr0;

pub struct Lent {
    propositions: Vec<u64>,
    proofs: Vec<u64>,
    pub depths: Vec<u64>,
    pub marks: Vec<u8>,
    pub authorised: Vec<u8>,
}

impl Lent {
    pub fn to(section: &DecodedEvr0) -> Self {
        let proofs = section.proofs.len();
        Lent {
            propositions: vec![0; section.propositions.len()],
            proofs: vec![0; proofs],
            depths: vec![0; proofs],
            marks: vec![0; proofs],
            authorised: vec![0; section.propositions.len()],
        }
    }

    /// For one call that asks about a record.
    pub fn tables(&mut self) -> SectionTables<'_> {
        SectionTables {
            propositions: &mut self.propositions,
            proofs: &mut self.proofs,
            depths: &mut self.depths,
        }
    }

    /// For one call that asks about all of them, on these bytes.
    pub fn all<'a>(&'a mut self, bytes: &'a [u8], at: usize) -> calls::Lent<'a> {
        calls::Lent {
            bytes,
            cursor: at,
            tables: SectionTables {
                propositions: &mut self.propositions,
                proofs: &mut self.proofs,
                depths: &mut self.depths,
            },
            marks: &mut self.marks,
            authorised: &mut self.authorised,
        }
    }
}

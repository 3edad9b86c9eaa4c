//! By which rules a section is decoded: the four, or those of a table.

use falgnust::calls::{self, Lent, SectionTables};
use falgnust::evr0::{
    self, CompareError, Comparison, DecodedEvr0, Evr0Error, Proof, Proposition, RuleTable,
};
use falgnust::raw;

/// The table of `--rules`, or none, where the four are meant.
#[derive(Clone, Copy)]
pub struct Rules<'a>(pub Option<&'a RuleTable>);

type Found<T> = Result<Option<T>, Evr0Error>;

impl Rules<'_> {
    pub fn decode(self, bytes: &[u8], cursor: &mut usize) -> Result<DecodedEvr0, Evr0Error> {
        match self.0 {
            None => evr0::decode_evr0_section(bytes, cursor),
            Some(table) => table.decode(bytes, cursor),
        }
    }

    /// With the depths, the marks and what is authorised in the lent tables.
    pub fn told(self, lent: Lent) -> raw::Section {
        match self.0 {
            None => calls::authorised_table(lent),
            Some(table) => calls::authorised_table_by_rules(table.bytes(), lent),
        }
    }

    /// Of each proposition whether it is authorised.
    pub fn authorised(self, bytes: &[u8], at: usize) -> Result<Vec<bool>, Evr0Error> {
        match self.0 {
            None => evr0::authorised_table(bytes, at),
            Some(table) => table.authorised_table(bytes, at),
        }
    }

    pub fn compare(
        self,
        (first, first_at): (&[u8], usize),
        (second, second_at): (&[u8], usize),
    ) -> Result<Comparison, CompareError> {
        match self.0 {
            None => evr0::compare_sections(first, first_at, second, second_at),
            Some(table) => table.compare_sections(first, first_at, second, second_at),
        }
    }

    /// The round in which each proof is marked.
    pub fn rounds(self, bytes: &[u8], at: usize) -> Result<Vec<u64>, Evr0Error> {
        match self.0 {
            None => evr0::depth_by_rounds(bytes, at),
            Some(table) => table.depth_by_rounds(bytes, at),
        }
    }

    pub fn way_down(
        self,
        bytes: &[u8],
        at: usize,
        proof: u32,
        limit: u64,
        lent: SectionTables,
    ) -> raw::WayDown {
        match self.0 {
            None => calls::way_down(bytes, at, proof, limit, lent),
            Some(table) => calls::way_down_by_rules(table.bytes(), bytes, at, proof, limit, lent),
        }
    }

    pub fn proposition(self, bytes: &[u8], at: usize, number: u32) -> Found<Proposition> {
        match self.0 {
            None => evr0::proposition_number(bytes, at, number),
            Some(table) => table.proposition_number(bytes, at, number),
        }
    }

    pub fn proof(self, bytes: &[u8], at: usize, number: u32) -> Found<Proof> {
        match self.0 {
            None => evr0::proof_number(bytes, at, number),
            Some(table) => table.proof_number(bytes, at, number),
        }
    }
}

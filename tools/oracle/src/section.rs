//! A section as the Rust decodes it, or a model of it, with the starts and depths that follow from its records.

use crate::evr0::{self, Evr0Error, Proof, characters};
use crate::messages::of_section;
use crate::records::{DecodedEvr0, of_schema_1};
use crate::rules::Rule;
use crate::{evr0_ruled, evr0_wide, evr0_wide_ruled};
use answers::Answer;
use answers::section::{Head, Section, Tables};

/// What a section is held to: the Rust, which reads schema 1 alone, or a model of it, by other rules, for schema 2, or with both.
#[derive(Debug, Clone, Copy)]
pub enum Judge<'a> {
    Rust,
    Ruled(&'a [Rule]),
    Wide,
    WideRuled(&'a [Rule]),
}

impl Judge<'_> {
    /// The same for schema 2.
    pub fn wide(self) -> Self {
        match self {
            Judge::Rust | Judge::Wide => Judge::Wide,
            Judge::Ruled(rules) | Judge::WideRuled(rules) => Judge::WideRuled(rules),
        }
    }

    /// The same for the schema of the section at a cursor: for every one but 2 as it is.
    pub fn of(self, bytes: &[u8], cursor: usize) -> Self {
        match schema(bytes, cursor) {
            Some(2) => self.wide(),
            _ => self,
        }
    }

    /// The schema that it reads.
    pub fn schema(self) -> u16 {
        match self {
            Judge::Rust | Judge::Ruled(_) => 1,
            Judge::Wide | Judge::WideRuled(_) => 2,
        }
    }

    /// The records, or the error in the Rust's words.
    pub fn decode(self, bytes: &[u8], cursor: &mut usize) -> Result<DecodedEvr0, Evr0Error> {
        match self {
            Judge::Rust => evr0::decode_evr0_section(bytes, cursor).map(of_schema_1),
            Judge::Ruled(rules) => {
                evr0_ruled::decode_evr0_section(rules, bytes, cursor).map(of_schema_1)
            }
            Judge::Wide => evr0_wide::decode_evr0_section(bytes, cursor),
            Judge::WideRuled(rules) => evr0_wide_ruled::decode_evr0_section(rules, bytes, cursor),
        }
    }

    /// The section at a cursor, with its records.
    pub fn section(self, bytes: &[u8], cursor: usize) -> Answer<(Section, DecodedEvr0)> {
        let mut after = cursor;
        match self.decode(bytes, &mut after) {
            Ok(decoded) => Ok((answer(&decoded, self.schema(), after), decoded)),
            Err(error) => {
                assert_eq!(after, cursor, "a refusal moved the cursor");
                Err(of_section(error))
            }
        }
    }
}

/// The section at a cursor, from the Rust.
pub fn section(bytes: &[u8], cursor: usize) -> Answer<(Section, DecodedEvr0)> {
    Judge::Rust.section(bytes, cursor)
}

/// The two bytes where the payload of a section at a cursor starts; none where the file ends before.
pub fn schema(bytes: &[u8], cursor: usize) -> Option<u16> {
    let payload = bytes.get(cursor.checked_add(8)?..)?;
    Some(u16::from_le_bytes(*payload.first_chunk()?))
}

const HEAD: usize = 2 + 2 + 32 + 32 + 2;
const COUNTS: usize = 4 * 4;

fn text(value: &str) -> usize {
    2 + value.len()
}

/// The records stand one after the other, so that their sizes give their starts.
fn answer(d: &DecodedEvr0, schema: u16, cursor: usize) -> Section {
    let policy = HEAD;
    let issuer = policy + text(&d.policy_namespace);
    let first = issuer + text(&d.issuer_namespace) + COUNTS;
    let (propositions, next) = starts(first, d.propositions.iter().map(|p| text(&p.kind) + 12));
    let (proofs, _) = starts(next, d.proofs.iter().map(|p| 8 + text(&p.rule_id) + 24));
    Section {
        head: Head {
            source_set: d.source_set,
            compiler_contract: d.compiler_contract,
            epoch: d.epoch,
            schema,
            policy,
            issuer,
            policy_chars: characters(&d.policy_namespace),
            issuer_chars: characters(&d.issuer_namespace),
            counts: [
                d.propositions.len(),
                d.proofs.len(),
                d.witnesses.len(),
                d.parents.len(),
            ],
        },
        cursor,
        tables: Tables {
            propositions,
            proofs,
            depths: depths(&d.proofs, &d.parents),
        },
    }
}

/// The start of each record, and the place after the last.
pub(crate) fn starts(first: usize, sizes: impl Iterator<Item = usize>) -> (Vec<u64>, usize) {
    let mut at = first;
    let starts = sizes
        .map(|size| {
            let start = at;
            at += size;
            start as u64
        })
        .collect();
    (starts, at)
}

/// 1 without parents, else one more than the deepest parent; a parent's number is below its proof's.
fn depths(proofs: &[Proof], parents: &[u32]) -> Vec<u64> {
    let mut depths: Vec<u64> = Vec::with_capacity(proofs.len());
    for proof in proofs {
        let first = proof.parent_first as usize;
        let owned = &parents[first..first + proof.parent_count as usize];
        let deepest = owned.iter().map(|&p| depths[p as usize]).max();
        depths.push(1 + deepest.unwrap_or(0));
    }
    depths
}

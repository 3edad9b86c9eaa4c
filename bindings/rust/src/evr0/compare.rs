//! Which propositions of a section are authorised, and two sections compared.

use super::ask::payload;
use super::tables::{Counted, lend};
use super::{Evr0Error, Proposition, records};
use crate::calls::{self, Lent, SectionTables};
use crate::messages;
use crate::raw::{self, Section};
use std::fmt;

/// Of each proposition of the section at `cursor`, in their order, whether it is [authorised](super::authorised): in one pass over the proofs,
/// where asking for each proposition decodes the section as often.
///
/// ```
/// use falgnust::evr0::authorised_table;
///
/// let mut file = b"EVR0\x6b\x00\x00\x00".to_vec(); // a payload of 107 bytes
/// file.extend([1, 0, 0, 0]); // schema, flags
/// file.extend([0; 32 + 32 + 2]); // two digests, epoch
/// file.extend(b"\x01\x00a\x01\x00b"); // policy, issuer
/// file.extend([1, 0, 0, 0]); // one proposition,
/// file.extend([0; 3 * 4]); // no proofs, witnesses, parents
/// file.extend(b"\x01\x00k\0\0\0\0\0\0\0\0\0\0\0\0"); // kind; owner, scope, type
/// assert_eq!(authorised_table(&file, 0), Ok(vec![false]));
///
/// assert_eq!(authorised_table(b"EVR1", 0).unwrap_err().number(), Some(1));
/// ```
pub fn authorised_table(bytes: &[u8], cursor: usize) -> Result<Vec<bool>, Evr0Error> {
    authorised_by(bytes, cursor, calls::authorised_table)
}

/// Of the propositions of a section that `call` decodes.
pub(super) fn authorised_by(
    bytes: &[u8],
    cursor: usize,
    call: impl Fn(Lent) -> Section,
) -> Result<Vec<bool>, Evr0Error> {
    lend(bytes, |tables| {
        let mut marks = vec![0; tables.depths.len()];
        let mut authorised = vec![0; tables.propositions.len()];
        let section = call(Lent {
            bytes,
            cursor,
            tables,
            marks: &mut marks,
            authorised: &mut authorised,
        });
        if !section.accepted {
            return Err(section.refusal);
        }
        let told = &authorised[..section.propositions];
        Ok(told.iter().map(|told| *told == 1).collect())
    })
    .map_err(Evr0Error::new)
}

/// What two sections say of a proposition.
#[derive(Debug, Clone, Copy, PartialEq, Eq)]
pub enum Verdict {
    /// Both have it, and it is authorised in both or in neither.
    Agreed,
    /// Both have it, and it is authorised in one of them alone.
    Contradicted,
    /// The first has it alone.
    FirstOnly,
    /// The second has it alone.
    SecondOnly,
}

impl Verdict {
    fn of(byte: u8) -> Self {
        match byte {
            1 => Verdict::Agreed,
            2 => Verdict::Contradicted,
            3 => Verdict::FirstOnly,
            4 => Verdict::SecondOnly,
            other => panic!("no verdict is {other}"),
        }
    }
}

/// A proposition of either section, and what both say of it.
#[derive(Debug, Clone, PartialEq, Eq)]
pub struct Compared {
    /// The proposition: kind, owner, scope and type.
    pub proposition: Proposition,
    /// What both say of it.
    pub verdict: Verdict,
}

/// How two sections compare.
#[derive(Debug, Clone, PartialEq, Eq)]
pub struct Comparison {
    /// Each proposition that either section has, once, strictly rising.
    pub entries: Vec<Compared>,
    /// How many are agreed.
    pub agreed: usize,
    /// How many are contradicted.
    pub contradicted: usize,
    /// How many the first section has alone: with those agreed and contradicted, all of its propositions.
    pub first_only: usize,
    /// How many the second section has alone: with those agreed and contradicted, all of its propositions.
    pub second_only: usize,
}

/// Why two sections are not compared, and whose refusal it is.
#[derive(Debug, Clone, PartialEq, Eq)]
pub enum CompareError {
    /// The first section's; its offset is a place in the first bytes.
    First(Evr0Error),
    /// The second section's; its offset is a place in the second bytes.
    Second(Evr0Error),
    /// Of both together: their source sets differ.
    SourceSets {
        /// Where the second's stands, in the second bytes.
        offset: usize,
    },
}

impl CompareError {
    /// The number of document 01 or 02: 1 to 29 of either section, 74 where the source sets differ, and none for an error that is not the decoder's.
    pub fn number(&self) -> Option<u8> {
        match self {
            CompareError::First(error) | CompareError::Second(error) => error.number(),
            CompareError::SourceSets { .. } => Some(SOURCE_SETS),
        }
    }

    /// Where: in the first bytes for the first section's refusal, else in the second.
    pub fn offset(&self) -> usize {
        match self {
            CompareError::First(error) | CompareError::Second(error) => error.offset,
            CompareError::SourceSets { offset } => *offset,
        }
    }

    fn new(whose: u8, refusal: raw::Refusal) -> Self {
        match (whose, refusal.number) {
            (2, _) => CompareError::First(Evr0Error::new(refusal)),
            (3, _) => CompareError::Second(Evr0Error::new(refusal)),
            (4, SOURCE_SETS) => CompareError::SourceSets {
                offset: refusal.offset,
            },
            other => panic!("a comparison has no refusal of {other:?} here"),
        }
    }
}

/// The number of a refusal for the source sets.
const SOURCE_SETS: u8 = 74;

impl fmt::Display for CompareError {
    fn fmt(&self, f: &mut fmt::Formatter) -> fmt::Result {
        match self {
            CompareError::First(error) => write!(f, "first section: {error}"),
            CompareError::Second(error) => write!(f, "second section: {error}"),
            CompareError::SourceSets { offset } => {
                let message = messages::message(SOURCE_SETS);
                write!(f, "{message} at {offset} of the second")
            }
        }
    }
}

impl std::error::Error for CompareError {
    fn source(&self) -> Option<&(dyn std::error::Error + 'static)> {
        match self {
            CompareError::First(error) | CompareError::Second(error) => Some(error),
            CompareError::SourceSets { .. } => None,
        }
    }
}

/// Compares the section of some bytes at a cursor with another's. Both are decoded, the first one's refusal going first; then their source sets have to
/// be the same (74). Propositions are matched on kind, owner, scope and type.
///
/// ```
/// use falgnust::evr0::{CompareError, Verdict, compare_sections};
///
/// // A section with this source set and one proposition of this kind, of which nothing is proved.
/// let section = |source_set: u8, kind: u8| {
///     let mut file = b"EVR0\x6b\x00\x00\x00".to_vec(); // a payload of 107 bytes
///     file.extend([1, 0, 0, 0]); // schema, flags
///     file.extend([source_set; 32]);
///     file.extend([0; 32 + 2]); // compiler's digest, epoch
///     file.extend(b"\x01\x00a\x01\x00b"); // policy, issuer
///     file.extend([1, 0, 0, 0]); // one proposition,
///     file.extend([0; 3 * 4]); // no proofs, witnesses, parents
///     file.extend([1, 0, kind]);
///     file.extend([0; 3 * 4]); // owner, scope, type
///     file
/// };
/// let (ours, theirs) = (section(7, b'k'), section(7, b'j'));
///
/// let same = compare_sections(&ours, 0, &ours, 0).unwrap();
/// assert_eq!((same.agreed, same.entries.len()), (1, 1));
///
/// let compared = compare_sections(&ours, 0, &theirs, 0).unwrap();
/// assert_eq!((compared.first_only, compared.second_only), (1, 1));
/// assert_eq!(compared.entries[0].proposition.kind, "j");
/// assert_eq!(compared.entries[0].verdict, Verdict::SecondOnly);
///
/// let error = compare_sections(&ours, 0, &section(8, b'k'), 0).unwrap_err();
/// assert_eq!(error, CompareError::SourceSets { offset: 12 });
/// assert_eq!(error.number(), Some(74));
///
/// let error = compare_sections(&ours, 0, b"EVR1", 0).unwrap_err();
/// assert_eq!((error.number(), error.offset()), (Some(1), 0));
/// assert_eq!(error.to_string(), "second section: missing mandatory EVR0 section at 0");
/// ```
pub fn compare_sections(
    first: &[u8],
    first_cursor: usize,
    second: &[u8],
    second_cursor: usize,
) -> Result<Comparison, CompareError> {
    compared(
        (first, first_cursor),
        (second, second_cursor),
        calls::compare_sections,
    )
}

/// Some bytes and a cursor.
type At<'a> = (&'a [u8], usize);

/// How two sections compare, by a call.
pub(super) fn compared(
    first: At,
    second: At,
    call: impl Fn(Lent, Lent, &mut [u8]) -> raw::Comparison,
) -> Result<Comparison, CompareError> {
    let (mut ours, mut theirs) = (Tables::of(first), Tables::of(second));
    let most = ours.authorised.len() + theirs.authorised.len();
    let mut verdicts = vec![0; most];
    let told = call(ours.lent(first), theirs.lent(second), &mut verdicts);
    if !told.accepted {
        return Err(CompareError::new(told.whose, told.refusal));
    }
    verdicts.truncate(told.agreed + told.contradicted + told.first_only + told.second_only);
    let verdicts: Vec<Verdict> = verdicts.into_iter().map(Verdict::of).collect();
    let starts = [ours, theirs].map(|tables| tables.counted.propositions);
    Ok(Comparison {
        entries: entries([first, second], &starts, &verdicts),
        agreed: told.agreed,
        contradicted: told.contradicted,
        first_only: told.first_only,
        second_only: told.second_only,
    })
}

/// The list with its propositions: each verdict but the second's alone takes the first's next. Of the second those that it has alone are read.
fn entries(files: [At; 2], [ours, theirs]: &[Vec<u64>; 2], verdicts: &[Verdict]) -> Vec<Compared> {
    let in_second = verdicts.iter().filter(|v| **v != Verdict::FirstOnly);
    let alone = in_second
        .zip(theirs)
        .filter(|(v, _)| **v == Verdict::SecondOnly);
    let theirs: Vec<u64> = alone.map(|(_, start)| *start).collect();
    let read = |(bytes, cursor): At, starts: &[u64]| {
        records::propositions(payload(bytes, cursor), starts).into_iter()
    };
    let (mut ours, mut theirs) = (read(files[0], ours), read(files[1], &theirs));
    let each = verdicts.iter().map(|verdict| {
        let proposition = match verdict {
            Verdict::SecondOnly => theirs.next(),
            _ => ours.next(),
        };
        Compared {
            proposition: proposition.expect("a proposition of each entry"),
            verdict: *verdict,
        }
    });
    each.collect()
}

/// The five tables of a section, as long as its counts, so that no answer is 61.
struct Tables {
    counted: Counted,
    marks: Vec<u8>,
    authorised: Vec<u8>,
}

impl Tables {
    /// Tables of no entries are refused at the counts, which are asked before any rule; where there are none, none are needed.
    fn of((bytes, cursor): At) -> Self {
        let none = SectionTables {
            propositions: &mut [],
            proofs: &mut [],
            depths: &mut [],
        };
        let asked = calls::decode_evr0_unmarked(bytes, cursor, none);
        let counted = match asked.refusal.number {
            61 => Counted::new(bytes, asked.refusal),
            _ => Counted::default(),
        };
        Tables {
            marks: vec![0; counted.proofs.len()],
            authorised: vec![0; counted.propositions.len()],
            counted,
        }
    }

    fn lent<'a>(&'a mut self, (bytes, cursor): At<'a>) -> Lent<'a> {
        Lent {
            bytes,
            cursor,
            tables: self.counted.lent(),
            marks: &mut self.marks,
            authorised: &mut self.authorised,
        }
    }
}

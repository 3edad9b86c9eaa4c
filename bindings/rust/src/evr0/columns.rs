//! Sections by column.

use super::tables::Fitted;
use super::{Evr0Error, HEADER, MAX_EVR0_PAYLOAD, RuleTable};
use crate::calls::{self, SectionTables};
use crate::messages;
use crate::raw::{Columns, Refusal};
use crate::read::{Read, accepted};
use std::fmt;

/// Why columns are of no section.
#[derive(Debug, Clone, PartialEq, Eq)]
pub enum ColumnsError {
    /// A number in more groups than needed, or too large for its field.
    Number {
        /// Its first byte that no right number has there.
        offset: usize,
    },
    /// Columns that are cut, or bytes left over after them.
    Length {
        /// The end of the columns, or the first byte left over.
        offset: usize,
    },
    /// The decoder's, of the section that was rebuilt; its offset is a place in that section.
    Section(Evr0Error),
}

/// The numbers of the first two.
const NUMBER: u8 = 75;
const LENGTH: u8 = 76;

impl ColumnsError {
    /// The number of document 01 or 02: 75, 76, or 1 to 29 of the section that was rebuilt, and none for an error that is not the decoder's.
    pub fn number(&self) -> Option<u8> {
        match self {
            ColumnsError::Number { .. } => Some(NUMBER),
            ColumnsError::Length { .. } => Some(LENGTH),
            ColumnsError::Section(error) => error.number(),
        }
    }

    /// Where: in the columns, or in the section that was rebuilt.
    pub fn offset(&self) -> usize {
        match self {
            ColumnsError::Number { offset } | ColumnsError::Length { offset } => *offset,
            ColumnsError::Section(error) => error.offset,
        }
    }

    fn new(refusal: Refusal) -> Self {
        let offset = refusal.offset;
        match refusal.number {
            NUMBER => ColumnsError::Number { offset },
            LENGTH => ColumnsError::Length { offset },
            _ => ColumnsError::Section(Evr0Error::new(refusal)),
        }
    }
}

impl fmt::Display for ColumnsError {
    fn fmt(&self, f: &mut fmt::Formatter) -> fmt::Result {
        let (number, offset) = match self {
            ColumnsError::Number { offset } => (NUMBER, offset),
            ColumnsError::Length { offset } => (LENGTH, offset),
            ColumnsError::Section(error) => return write!(f, "rebuilt section: {error}"),
        };
        write!(f, "{} at {offset}", messages::message(number))
    }
}

impl std::error::Error for ColumnsError {
    fn source(&self) -> Option<&(dyn std::error::Error + 'static)> {
        match self {
            ColumnsError::Section(error) => Some(error),
            _ => None,
        }
    }
}

/// The section at `cursor` by column: its head, then all kinds, all owners, and on, with numbers in groups of seven bits. docs/COLUMNS.md has
/// the layout. It decodes the section anew, with its refusals, and writes its bytes alone, whatever stands around them.
///
/// ```
/// use falgnust::evr0::{take_columns, write_columns};
///
/// let mut file = b"EVR0\x5c\x00\x00\x00".to_vec(); // a payload of 92 bytes
/// file.extend([1, 0, 0, 0]); // schema, flags
/// file.extend([0; 32 + 32 + 2]); // two digests, epoch
/// file.extend(b"\x01\x00a\x01\x00b"); // policy, issuer
/// file.extend([0; 4 * 4]); // no propositions, proofs, witnesses, parents
///
/// let columns = write_columns(&file, 0).unwrap();
/// assert_eq!(columns[..78], file[..78]);
/// assert_eq!(columns[78..], *b"\x01a\x01b\x00\x00\x00\x00");
/// assert_eq!(take_columns(&columns), Ok(file));
///
/// assert_eq!(write_columns(b"EVR1", 0).unwrap_err().number(), Some(1));
/// ```
pub fn write_columns(bytes: &[u8], cursor: usize) -> Result<Vec<u8>, Evr0Error> {
    written(bytes, cursor, |lent, output| {
        calls::write_columns(bytes, cursor, lent, output)
    })
}

/// The section that these columns are of, byte for byte. What [`write_columns`] gives of an accepted section is taken back, and no other file is.
///
/// ```
/// use falgnust::evr0::{ColumnsError, take_columns};
///
/// let mut columns = b"EVR0\x5c\x00\x00\x00".to_vec(); // copied: the payload that is rebuilt has 92 bytes
/// columns.extend([1, 0, 0, 0]); // schema, flags
/// columns.extend([0; 32 + 32 + 2]); // two digests, epoch
/// columns.extend(b"\x01a\x01b\x00\x00\x00"); // policy, issuer, three counts
/// let error = take_columns(&columns).unwrap_err();
/// assert_eq!((error.number(), error.offset()), (Some(76), 85)); // the fourth is cut
///
/// columns.extend([0x80, 0x00]); // zero in two groups
/// let error = take_columns(&columns).unwrap_err();
/// assert_eq!(error, ColumnsError::Number { offset: 86 });
/// assert_eq!(error.number(), Some(75));
///
/// columns.truncate(85);
/// columns.push(0);
/// assert_eq!(take_columns(&columns).unwrap().len(), 100);
///
/// columns[4] = 0x5b; // a payload that is too short for its fields
/// let error = take_columns(&columns).unwrap_err();
/// assert_eq!(error.to_string(), "rebuilt section: EVR0 truncated field at 96");
/// ```
pub fn take_columns(columns: &[u8]) -> Result<Vec<u8>, ColumnsError> {
    taken(columns, |lent, output| {
        calls::take_columns(columns, lent, output)
    })
}

impl RuleTable {
    /// The section at `cursor` by column, as [`write_columns`].
    pub fn write_columns(&self, bytes: &[u8], cursor: usize) -> Result<Vec<u8>, Evr0Error> {
        written(bytes, cursor, |lent, output| {
            calls::write_columns_by_rules(self.bytes(), bytes, cursor, lent, output)
        })
    }

    /// The section that these columns are of, as [`take_columns`].
    pub fn take_columns(&self, columns: &[u8]) -> Result<Vec<u8>, ColumnsError> {
        taken(columns, |lent, output| {
            calls::take_columns_by_rules(self.bytes(), columns, lent, output)
        })
    }
}

/// How many bytes the section at a place has whose payload's length stands there; the longest has [`MAX_EVR0_PAYLOAD`] in its payload.
fn section_length(bytes: &[u8], cursor: usize) -> usize {
    let payload = calls::read_u32_le(bytes, cursor.saturating_add(4)).value as usize;
    HEADER + payload.min(MAX_EVR0_PAYLOAD)
}

/// Columns have at most a quarter more bytes than their section.
fn written(
    bytes: &[u8],
    cursor: usize,
    call: impl Fn(SectionTables, &mut [u8]) -> Columns,
) -> Result<Vec<u8>, Evr0Error> {
    let section = section_length(bytes, cursor).min(bytes.len());
    let mut output = vec![0; section + section / 4];
    let answer = call(Fitted::new(section).lent(), &mut output);
    cut(output, answer).map_err(Evr0Error::new)
}

/// An output as long as the payload's length says is enough where the section is accepted. Else it may be too short, and the call is made
/// again with one that is not, for the decoder's refusal: a byte of the columns gives at most 8.
fn taken(
    columns: &[u8],
    call: impl Fn(SectionTables, &mut [u8]) -> Columns,
) -> Result<Vec<u8>, ColumnsError> {
    let section = section_length(columns, 0);
    let mut tables = Fitted::new(section);
    let mut output = vec![0; section];
    let mut answer = call(tables.lent(), &mut output);
    if answer.refusal.number == 61 {
        output = vec![0; 8 * columns.len()];
        answer = call(tables.lent(), &mut output);
    }
    cut(output, answer).map_err(ColumnsError::new)
}

/// What was written of an output, or why nothing was.
fn cut(mut output: Vec<u8>, answer: Columns) -> Read<Vec<u8>> {
    accepted(answer.accepted, answer.refusal)?;
    output.truncate(answer.length);
    Ok(output)
}

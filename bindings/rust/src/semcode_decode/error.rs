//! The original's errors.

use super::{
    Block, MAX_DEBUG_SYMBOLS_PER_FUNCTION, MAX_SIGNATURE_PARAMETERS_PER_FUNCTION,
    MAX_STRINGS_PER_FUNCTION,
};
use crate::calls;
use crate::messages;
use crate::raw::Refusal;
use std::fmt;

/// A refusal. The variants are all of the original's; a block is refused with `InvalidStringTable`, `InvalidDebugSection`,
/// `InvalidOwnershipSection`, `InvalidSignatureSection` and `ResourceLimit`, a file of functions with `TruncatedFunction` and `InvalidFunctionName` too.
#[derive(Debug, Clone, PartialEq, Eq)]
#[allow(missing_docs)]
pub enum DecodeError {
    BadHeader,
    UnsupportedVersion { found: String, supported: String },
    TruncatedFunction { offset: usize, msg: &'static str },
    InvalidFunctionName { offset: usize, msg: &'static str },
    InvalidStringTable { offset: usize, msg: &'static str },
    InvalidDebugSection { offset: usize, msg: &'static str },
    InvalidOwnershipSection { offset: usize, msg: &'static str },
    InvalidSignatureSection { offset: usize, msg: &'static str },
    InvalidAdtDescriptorSection { offset: usize, msg: &'static str },
    InvalidEvidenceSection { offset: usize, msg: &'static str },
    ResourceLimit { offset: usize, msg: String },
}

impl DecodeError {
    /// Document 01's number, which the message gives; none for a message that is not the decoders'.
    pub fn number(&self) -> Option<u8> {
        self.parts().and_then(|(msg, _)| messages::number(msg))
    }

    /// Where in the file.
    pub fn offset(&self) -> Option<usize> {
        self.parts().map(|(_, offset)| offset)
    }

    fn parts(&self) -> Option<(&str, usize)> {
        match self {
            DecodeError::BadHeader | DecodeError::UnsupportedVersion { .. } => None,
            DecodeError::TruncatedFunction { offset, msg }
            | DecodeError::InvalidFunctionName { offset, msg }
            | DecodeError::InvalidStringTable { offset, msg }
            | DecodeError::InvalidDebugSection { offset, msg }
            | DecodeError::InvalidOwnershipSection { offset, msg }
            | DecodeError::InvalidSignatureSection { offset, msg }
            | DecodeError::InvalidAdtDescriptorSection { offset, msg }
            | DecodeError::InvalidEvidenceSection { offset, msg } => Some((msg, *offset)),
            DecodeError::ResourceLimit { offset, msg } => Some((msg, *offset)),
        }
    }
}

impl fmt::Display for DecodeError {
    fn fmt(&self, f: &mut fmt::Formatter) -> fmt::Result {
        match (self, self.parts()) {
            (_, Some((msg, offset))) => write!(f, "{msg} at {offset}"),
            (DecodeError::UnsupportedVersion { found, supported }, _) => {
                write!(f, "unsupported version {found}, supported are {supported}")
            }
            _ => write!(f, "bad header"),
        }
    }
}

impl std::error::Error for DecodeError {}

impl Block<'_> {
    pub fn error(&self, refusal: Refusal) -> DecodeError {
        let Refusal {
            kind,
            number,
            offset,
        } = refusal;
        let msg = match (kind, number) {
            (4, 71) => messages::OWNERSHIP_ABSENT,
            (8, 71) => messages::SIGNATURE_ABSENT,
            (8, 72) => self.signature_cut(),
            _ => messages::message(number),
        };
        match (kind, number) {
            (1, 31) => self.limit(offset, msg, MAX_STRINGS_PER_FUNCTION),
            (1, 36) => self.limit(offset, msg, MAX_DEBUG_SYMBOLS_PER_FUNCTION),
            (1, 73) => self.limit(offset, msg, MAX_SIGNATURE_PARAMETERS_PER_FUNCTION),
            (2, _) => DecodeError::InvalidStringTable { offset, msg },
            (3, _) => DecodeError::InvalidDebugSection { offset, msg },
            (4, _) => DecodeError::InvalidOwnershipSection { offset, msg },
            (8, _) => DecodeError::InvalidSignatureSection { offset, msg },
            _ => panic!("a block has no refusal {number} of kind {kind} here"),
        }
    }

    /// Where in the block it is refused: the offset at base 0, since at others it may be held at 2^64 - 1.
    fn refused_at(&self) -> usize {
        let here = Block::new(0, self.code, self.header_rev);
        match here.lend(|lent| here.decode(lent)) {
            Err(refusal) => refusal.offset,
            Ok(_) => panic!("a block is refused at every base or at none"),
        }
    }

    /// Which of the three causes of 72: the tag ends where the count is cut, and nowhere before a family, since its letters are no
    /// families and as a count they are too many.
    fn signature_cut(&self) -> &'static str {
        let at = self.refused_at();
        if at >= 4 && calls::tag_at(self.code, at - 4, b"SIG0") {
            return messages::PARAMETER_COUNT_CUT;
        }
        match calls::read_u8(self.code, at).whole {
            false => messages::FAMILY_CUT,
            true => messages::FAMILY_UNKNOWN,
        }
    }

    /// The count that was refused ends where the refusal stands.
    fn limit(&self, offset: usize, msg: &str, max: usize) -> DecodeError {
        let count = calls::read_u16_le(self.code, self.refused_at() - 2).value;
        DecodeError::ResourceLimit {
            offset,
            msg: format!("{msg}{count} (max {max})"),
        }
    }
}

//! The marks of a section's proofs.

use super::Evr0Error;
use super::tables::lend;
use crate::calls::{self, SectionTables};
use crate::raw::Section;

/// The mark of each proof of the section at `cursor`, in the order of the proofs: 1 where every walk down from it, by any parents until none
/// is left, ends at a positive witness, 2 where every such walk ends at a negative one, else 3. It decodes the section anew.
///
/// ```
/// use falgnust::evr0::marks;
///
/// let mut file = b"EVR0\x5c\x00\x00\x00".to_vec(); // a payload of 92 bytes
/// file.extend([1, 0, 0, 0]); // schema, flags
/// file.extend([0; 32 + 32 + 2]); // two digests, epoch
/// file.extend(b"\x01\x00a\x01\x00b"); // policy, issuer
/// file.extend([0; 4 * 4]); // no propositions, proofs, witnesses, parents
/// assert_eq!(marks(&file, 0), Ok(vec![]));
///
/// assert_eq!(marks(b"EVR1", 0).unwrap_err().number(), Some(1));
/// ```
pub fn marks(bytes: &[u8], cursor: usize) -> Result<Vec<u8>, Evr0Error> {
    marked(bytes, |lent, marks| {
        calls::decode_evr0_section(bytes, cursor, lent, marks)
    })
}

/// The marks of a section that `call` decodes.
pub(super) fn marked(
    bytes: &[u8],
    call: impl Fn(SectionTables, &mut [u8]) -> Section,
) -> Result<Vec<u8>, Evr0Error> {
    lend(bytes, |lent| {
        let mut marks = vec![0; lent.depths.len()];
        let section = call(lent, &mut marks);
        if !section.accepted {
            return Err(section.refusal);
        }
        marks.truncate(section.proofs);
        Ok(marks)
    })
    .map_err(Evr0Error::new)
}

//! The depths of a section's proofs by rounds.

use super::Evr0Error;
use super::tables::lend;
use crate::calls::{self, SectionTables};
use crate::raw::Rounds;

/// The depth of each proof of the section at `cursor`, in the order of the proofs, by a method that fits on a card: in each round, counted
/// from 1, the proofs are marked all of whose parents were marked in earlier rounds, and a proof's depth is the round in which it is marked.
///
/// It refuses as the decoder would without 27 to 29, so 25 or 26 of any proof comes first; then with 27 where a proof is unmarked after 256
/// rounds. Witnesses are not asked: a section that the decoder refuses with 28 or 29 has its depths here.
///
/// ```
/// use falgnust::evr0::depth_by_rounds;
///
/// let mut file = b"EVR0\x5c\x00\x00\x00".to_vec(); // a payload of 92 bytes
/// file.extend([1, 0, 0, 0]); // schema, flags
/// file.extend([0; 32 + 32 + 2]); // two digests, epoch
/// file.extend(b"\x01\x00a\x01\x00b"); // policy, issuer
/// file.extend([0; 4 * 4]); // no propositions, proofs, witnesses, parents
/// assert_eq!(depth_by_rounds(&file, 0), Ok(vec![]));
///
/// assert_eq!(depth_by_rounds(b"EVR1", 0).unwrap_err().number(), Some(1));
/// ```
pub fn depth_by_rounds(bytes: &[u8], cursor: usize) -> Result<Vec<u64>, Evr0Error> {
    rounds(bytes, |lent| calls::depth_by_rounds(bytes, cursor, lent))
}

/// The rounds that `call` makes.
pub(super) fn rounds(
    bytes: &[u8],
    call: impl Fn(SectionTables) -> Rounds,
) -> Result<Vec<u64>, Evr0Error> {
    lend(bytes, |lent| {
        let SectionTables {
            propositions,
            proofs,
            depths,
        } = lent;
        let marked = call(SectionTables {
            propositions,
            proofs,
            depths: &mut *depths,
        });
        if !marked.accepted {
            return Err(marked.refusal);
        }
        Ok(depths[..marked.proofs].to_vec())
    })
    .map_err(Evr0Error::new)
}

//! Refusals.

use answers::refusal::{Kind, Refusal};
use falgnust::raw;

#[inline]
pub fn answer(r: raw::Refusal) -> Refusal {
    Refusal {
        kind: Kind::ALL[r.kind as usize],
        number: r.number,
        offset: r.offset,
    }
}

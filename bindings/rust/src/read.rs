//! What the answers of the proved functions have in common.

use crate::raw::Refusal;
use std::mem::MaybeUninit;

/// A record, or why there is none.
pub type Read<T> = Result<T, Refusal>;

#[inline]
pub fn accepted(accepted: bool, refusal: Refusal) -> Read<()> {
    if accepted { Ok(()) } else { Err(refusal) }
}

/// A record of a section or block that was accepted.
#[inline]
pub fn there<T>(read: Read<T>) -> T {
    read.expect("each record of what was accepted")
}

/// Room for the words of some records, which are read at a time, so that they stay near.
pub type Room = [MaybeUninit<u64>; 80];

#[inline]
pub fn room() -> Room {
    [MaybeUninit::uninit(); 80]
}

/// The records that start at these places, of what was accepted: each by its `N` words, which `read` writes for some starts at a time.
#[inline]
pub fn records<const N: usize, T>(
    bytes: &[u8],
    starts: &[u64],
    read: impl for<'a> Fn(&[u8], &[u64], &'a mut [MaybeUninit<u64>]) -> (bool, &'a [u64]),
    record: impl Fn([u64; N]) -> T,
) -> Vec<T> {
    let mut records = Vec::with_capacity(starts.len());
    let mut room = room();
    for starts in starts.chunks(room.len() / N) {
        let (there, words) = read(bytes, starts, &mut room[..N * starts.len()]);
        whole(there);
        for words in words.as_chunks().0 {
            records.push(record(*words));
        }
    }
    records
}

/// The answer of a function that writes words.
#[inline]
pub fn whole(there: bool) {
    assert!(there, "each record of what was accepted is whole");
}

/// The text of so many bytes from a place on.
///
/// # Safety
///
/// The bytes are UTF-8.
#[inline]
#[allow(unsafe_code)]
pub unsafe fn text(bytes: &[u8], start: usize, len: usize) -> String {
    let bytes = &bytes[start..][..len];
    // SAFETY: as the caller says.
    unsafe { String::from_utf8_unchecked(bytes.to_vec()) }
}

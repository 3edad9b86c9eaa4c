//! Fields.

use answers::text::Field;
use falgnust::calls;
use falgnust::raw;

fn answer(f: raw::Field) -> Field {
    f.whole.then_some((f.value, f.next))
}

#[inline]
pub fn read_u8(bytes: &[u8], at: usize) -> Field {
    answer(calls::read_u8(bytes, at))
}

#[inline]
pub fn read_u16_le(bytes: &[u8], at: usize) -> Field {
    answer(calls::read_u16_le(bytes, at))
}

#[inline]
pub fn read_u32_le(bytes: &[u8], at: usize) -> Field {
    answer(calls::read_u32_le(bytes, at))
}

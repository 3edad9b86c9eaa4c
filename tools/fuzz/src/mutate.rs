//! Mutation: libFuzzer's own, and now and then a new section, block, file of functions, table of rules or column file with a fault or two, a new
//! pair of sections, or new claims and releases, which changes of bytes would not find.

use crate::input::{Case, by_rules, bytes, of_one_pool, of_owners};
use inputs::cases;
use inputs::columns;
use inputs::random::Random;
use inputs::wide::wide;

unsafe extern "C" {
    fn LLVMFuzzerMutate(data: *mut u8, size: usize, max_size: usize) -> usize;
}

/// One in so many mutations makes a new input.
const NEW: usize = 64;

/// Changes an input in place, and gives its new size.
///
/// # Safety
///
/// `data` points to `max_size` bytes, of which the first `size` are the input.
#[unsafe(no_mangle)]
pub unsafe extern "C" fn LLVMFuzzerCustomMutator(
    data: *mut u8,
    size: usize,
    max_size: usize,
    seed: u32,
) -> usize {
    let mut r = Random::new(seed.into());
    if r.one_in(NEW) {
        let case = match r.below(8) {
            0 => Case::Section(cases::section(&mut r)),
            1 => Case::Section(cases::section_in(&mut r, wide)),
            2 => Case::Block(cases::block(&mut r)),
            3 => Case::Functions(cases::functions(&mut r)),
            4 => by_rules(&mut r),
            5 => of_one_pool(&mut r),
            6 => of_owners(&mut r),
            _ => Case::Columns(columns::small(&mut r)),
        };
        let new = bytes(&case);
        if new.len() <= max_size {
            unsafe { std::slice::from_raw_parts_mut(data, new.len()) }.copy_from_slice(&new);
            return new.len();
        }
    }
    unsafe { LLVMFuzzerMutate(data, size, max_size) }
}

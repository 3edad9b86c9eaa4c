//! What libFuzzer calls. A difference from the Rust, or a panic on either side, ends the program.

mod input;
mod mutate;

pub use input::{Case, by_rules, bytes, case, of_one_pool, of_owners};

use differential::by::By;
use differential::tally::Tally;
use differential::{
    block_binding, block_compare, block_numbers, columns, locks, marks, rounds, rules,
};
use differential::{compare as pairs, function_compare, function_numbers};
use differential::{section_compare, section_numbers};

/// Tries one input.
///
/// # Safety
///
/// `data` points to `size` bytes.
#[unsafe(no_mangle)]
pub unsafe extern "C" fn LLVMFuzzerTestOneInput(data: *const u8, size: usize) -> i32 {
    let data = match size {
        0 => &[],
        _ => unsafe { std::slice::from_raw_parts(data, size) },
    };
    if let Some(case) = case(data) {
        compare(&case);
    }
    0
}

fn compare(case: &Case) {
    let mut tally = Tally::new("fuzz");
    match case {
        Case::Section(case) => {
            let by = By::FOUR.of(&case.file, case.cursor); // the Rust, or for schema 2 the model
            let rust = by.expected(&case.file, case.cursor);
            section_compare::compare_by(&mut tally, case, by);
            section_numbers::compare_by(&mut tally, case, &rust, by);
            marks::compare(&mut tally, case, by, &rust);
            columns::write(&mut tally, By::FOUR, case);
            rounds::compare(&mut tally, case);
        }
        Case::Block(case) => {
            let rust = oracle::block::block(&case.code, case.base, case.revision);
            block_compare::compare(&mut tally, case);
            block_numbers::compare(&mut tally, case, &rust, block_compare::rooms(case));
            block_binding::compare_long(&mut tally, case);
        }
        Case::Functions(case) => {
            let rust = oracle::functions::functions(&case.file, case.cursor, case.revision);
            function_compare::compare(&mut tally, case);
            function_numbers::compare(&mut tally, case, &rust, function_compare::rooms(case));
        }
        Case::Ruled(table, case) => {
            rules::compare(&mut tally, table, case);
            rounds::compare_by_table(&mut tally, table, case);
        }
        Case::Compared(pair) => pairs::compare(&mut tally, pair, By::FOUR),
        Case::Columns(file) => columns::take(&mut tally, By::FOUR, file),
        Case::Locks(words, steps) => locks::compare(&mut tally, words, steps, &input::sets()),
    }
    assert_eq!(tally.differences(), 0, "differences from the Rust");
}

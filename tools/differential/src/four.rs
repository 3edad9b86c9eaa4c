//! Sections with the four loaded, against the Rust: the inputs of part `sections`, each with the four in another of their 24 orders. All answers have
//! to be the old ones; the marks are compared with plain lines. Those of schema 2 are left to wide.rs.

use crate::by::By;
use crate::rules::marks;
use crate::section_compare::{compare_by, is_wide};
use crate::sections;
use crate::tally::Tally;
use falgnust::evr0::RuleTable;
use inputs::cases::{AS_IT_IS, SectionCase};
use inputs::random::Random;
use inputs::ruled;
use inputs::section_conditions::REACHABLE;
use std::sync::LazyLock;

/// One section at random for so many of the count.
const SHARE: usize = 2;

/// The marks of one section of so many are compared.
const MARKED: u64 = 5;

pub static ORDERS: LazyLock<Vec<RuleTable>> = LazyLock::new(|| {
    let load = |table: &ruled::Table| RuleTable::load(&table.bytes()).expect("the four");
    ruled::orders().iter().map(load).collect()
});

pub fn run(r: &mut Random, count: usize) -> Tally {
    let mut tally = Tally::of("four", &REACHABLE);
    sections::each(&mut tally, r, count / SHARE, AS_IT_IS, compare);
    tally
}

fn compare(tally: &mut Tally, case: &SectionCase) {
    if is_wide(case) {
        return;
    }
    let number = tally.inputs();
    let by = By::four_loaded(&ORDERS[number as usize % ORDERS.len()]);
    compare_by(tally, case, by);
    if number.is_multiple_of(MARKED) {
        marks(tally, case, by);
    }
}

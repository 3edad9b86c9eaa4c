//! The rows of the table: one input each, and what either side makes of it.

use std::hint::black_box;

#[derive(Clone, Copy)]
pub enum Side {
    Rust,
    Port,
}

/// So many calls of a side; the sum of the summaries of their results.
pub type Calls = Box<dyn Fn(u64) -> u64>;

pub struct Row {
    pub name: String,
    pub bytes: usize,
    pub rust: Calls,
    pub port: Calls,
}

impl Row {
    pub fn sum(&self, side: Side, count: u64) -> u64 {
        match side {
            Side::Rust => (self.rust)(count),
            Side::Port => (self.port)(count),
        }
    }
}

/// Calls that give a summary each: equal results have equal summaries.
pub fn calls(call: impl Fn() -> u64 + 'static) -> Calls {
    Box::new(move |count| (0..count).fold(0u64, |sum, _| sum.wrapping_add(black_box(call()))))
}

/// A row's name, and how it is made.
pub struct Plan {
    pub name: String,
    pub make: Box<dyn FnOnce() -> Row>,
}

pub fn plan(name: &str, make: impl FnOnce(String) -> Row + 'static) -> Plan {
    let name = name.to_string();
    Plan {
        name: name.clone(),
        make: Box::new(move || make(name)),
    }
}

pub fn all() -> Vec<Plan> {
    let mut rows = crate::texts::rows();
    rows.extend(crate::blocks::rows());
    rows.extend(crate::functions::rows());
    rows.extend(crate::sections::rows());
    rows.extend(crate::marks::rows());
    rows.extend(crate::locks::rows());
    rows.extend(crate::rules::rows());
    rows.extend(crate::rounds::rows());
    rows.extend(crate::compare::rows());
    rows.extend(crate::wide::rows());
    rows.extend(crate::columns::rows());
    rows.extend(crate::asked::rows());
    rows.extend(crate::asked_blocks::rows());
    rows.extend(crate::rust_crate::rows());
    rows.extend(crate::evidence::rows());
    rows
}

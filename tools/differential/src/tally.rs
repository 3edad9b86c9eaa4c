//! What was tried and what came of it.

use std::collections::BTreeMap;
use std::fmt::Debug;
use std::io::{IsTerminal, Write};
use std::time::{Duration, Instant};

/// What an input led to: accepted (number 0) or a refusal's number, and the condition of it that applied.
pub type Outcome = (u8, &'static str);

/// How many inputs of each condition a whole run has at least.
pub const LEAST: u64 = 1000;

/// Whether the Rust has a number: all of document 01's but 61 and 62, and those of Slips 1 and 9.
fn has_rust_side(number: u8) -> bool {
    matches!(number, 0..=60 | 63..=65 | 71..=73)
}

pub struct Tally {
    part: &'static str,
    inputs: u64,
    differences: u64,
    outcomes: BTreeMap<Outcome, u64>,
    /// The conditions that can be reached.
    reachable: &'static [Outcome],
    /// What is counted beside the outcomes.
    values: BTreeMap<&'static str, u64>,
    /// Whether the Rust is asked.
    rust: bool,
    shown: Instant,
}

const SHOWN: u64 = 10;

impl Tally {
    pub fn new(part: &'static str) -> Self {
        Tally::of(part, &[])
    }

    /// A part whose conditions have to be met so many times each.
    pub fn of(part: &'static str, reachable: &'static [Outcome]) -> Self {
        Tally {
            part,
            inputs: 0,
            differences: 0,
            outcomes: BTreeMap::new(),
            reachable,
            values: BTreeMap::new(),
            rust: true,
            shown: Instant::now(),
        }
    }

    /// A part that the port answers alone.
    pub fn alone(part: &'static str, reachable: &'static [Outcome]) -> Self {
        Tally {
            rust: false,
            ..Tally::of(part, reachable)
        }
    }

    /// A part that counts these values too, beside the outcomes.
    pub fn counting(mut self, values: &[&'static str]) -> Self {
        self.values = values.iter().map(|&value| (value, 0)).collect();
        self
    }

    /// The input has one of the values that are counted.
    pub fn value(&mut self, value: &'static str) {
        if let Some(count) = self.values.get_mut(value) {
            *count += 1;
        }
    }

    /// The values that too few inputs had.
    pub fn too_few_values(&self) -> Vec<(&'static str, u64)> {
        let counts = self.values.iter().map(|(&value, &count)| (value, count));
        counts.filter(|(_, count)| *count < LEAST).collect()
    }

    /// One input.
    pub fn input(&mut self, outcome: Outcome) {
        self.inputs += 1;
        *self.outcomes.entry(outcome).or_default() += 1;
        if self.inputs.is_multiple_of(1 << 12) {
            self.progress();
        }
    }

    /// A line on standard error: rewritten in place on a terminal, a new one every ten seconds elsewhere.
    pub fn progress(&mut self) {
        let terminal = std::io::stderr().is_terminal();
        let pause = Duration::from_millis(if terminal { 200 } else { 10_000 });
        if self.shown.elapsed() < pause {
            return;
        }
        self.shown = Instant::now();
        let line = format!(
            "{}: {} inputs, {} differences",
            self.part, self.inputs, self.differences
        );
        if terminal {
            eprint!("\r{line}");
            let _ = std::io::stderr().flush();
        } else {
            eprintln!("{line}");
        }
    }

    /// Whether both sides say the same of what `input` describes.
    pub fn same<T: PartialEq + Debug>(
        &mut self,
        rust: &T,
        port: &T,
        input: impl FnOnce() -> String,
    ) {
        if rust != port {
            self.differences += 1;
            if self.differences <= SHOWN {
                println!(
                    "difference in {}: {}\n  Rust {rust:?}\n  port {port:?}",
                    self.part,
                    input()
                );
            }
        }
    }

    pub fn inputs(&self) -> u64 {
        self.inputs
    }

    pub fn differences(&self) -> u64 {
        self.differences
    }

    fn count(&self, outcome: Outcome) -> u64 {
        self.outcomes.get(&outcome).copied().unwrap_or(0)
    }

    /// Whether a condition that can be reached has not been met often enough.
    pub fn lacks(&self, outcome: Outcome) -> bool {
        self.reachable.contains(&outcome) && self.count(outcome) < LEAST
    }

    pub fn too_few(&self) -> Vec<(Outcome, u64)> {
        let counts = self.reachable.iter().map(|&o| (o, self.count(o)));
        counts.filter(|(_, count)| *count < LEAST).collect()
    }

    /// How many inputs the Rust answers too, and how many of those are accepted.
    pub fn with_rust_side(&self) -> (u64, u64) {
        if !self.rust {
            return (0, 0);
        }
        let of = |wanted: fn(u8) -> bool| -> u64 {
            let found = self.outcomes.iter().filter(|((n, _), _)| wanted(*n));
            found.map(|(_, count)| count).sum()
        };
        (of(has_rust_side), of(|number| number == 0))
    }

    pub fn print(&self) {
        if std::io::stderr().is_terminal() {
            eprint!("\r\x1b[K");
        }
        let (both, accepted) = self.with_rust_side();
        println!(
            "{}: {} inputs, {both} with a Rust side, {accepted} accepted, {} differences",
            self.part, self.inputs, self.differences
        );
        for number in 0..=u8::MAX {
            let all: Vec<(&str, u64)> = self
                .outcomes
                .iter()
                .filter(|((n, _), _)| *n == number)
                .map(|((_, condition), count)| (*condition, *count))
                .collect();
            print_number(number, &all);
        }
        if !self.values.is_empty() {
            println!("    values");
        }
        for (value, count) in &self.values {
            println!("            {count:>9}  {value}");
        }
    }
}

/// The inputs of a number, and of each condition where there are several.
fn print_number(number: u8, all: &[(&str, u64)]) {
    let name = match number {
        0 => "accepted".to_string(),
        _ => number.to_string(),
    };
    let sum: u64 = all.iter().map(|(_, count)| count).sum();
    match all {
        [] => (),
        [(condition, count)] => println!("  {name:>8}  {count:>9}  {condition}"),
        _ => {
            println!("  {name:>8}  {sum:>9}");
            for (condition, count) in all {
                println!("            {count:>9}  {condition}");
            }
        }
    }
}

/// Some bytes, shortened.
pub fn hex(bytes: &[u8]) -> String {
    let shown: String = bytes
        .iter()
        .take(2048)
        .map(|b| format!("{b:02x}"))
        .collect();
    format!("{} bytes {shown}", bytes.len())
}

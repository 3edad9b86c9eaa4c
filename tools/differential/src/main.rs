//! Compares the port with the Rust on seeded inputs: kind, number and offset of each refusal, and each result and table entry.

use differential::tally::{LEAST, Tally};
use differential::{
    authorised, blocks, columns, compare, fields, four, functions, locks, marks, neighbours,
    rounds, rules, sections, texts, utf8, wide,
};
use inputs::random::Random;

/// The random inputs of a part, where no other number is asked for.
const COUNT: usize = 500_000;

const USAGE: &str = "usage: differential [--seed N] [--count N] [--part NAME]";

/// The parts of a run: a name, and what tries so many random inputs.
type Part = (&'static str, fn(&mut Random, usize) -> Tally);

const PARTS: [Part; 16] = [
    ("fields", |r, _| fields::run(r)),
    ("utf8", |_, _| utf8::run()),
    ("texts", texts::run),
    ("sections", sections::run),
    ("neighbours", neighbours::run),
    ("marks", marks::run),
    ("authorised", authorised::run),
    ("four", four::run),
    ("rules", rules::run),
    ("compare", compare::run),
    ("wide", wide::run),
    ("rounds", rounds::run),
    ("columns", columns::run),
    ("blocks", blocks::run),
    ("functions", functions::run),
    ("locks", locks::run),
];

fn main() {
    let options = options().unwrap_or_else(|| {
        eprintln!("{USAGE}");
        std::process::exit(2);
    });
    let messages = oracle::messages::check().expect("a map of all messages");
    println!(
        "{messages} messages of the Rust have their numbers; seed {}, count {}",
        options.seed, options.count
    );
    let mut tallies = Vec::new();
    for (name, run) in PARTS {
        if options.part.as_ref().is_none_or(|part| part == name) {
            let tally = run(&mut Random::new(options.seed), options.count);
            tally.print();
            tallies.push(tally);
        }
    }
    println!("{NOT_GIVEN}");
    let whole = options.part.is_none() && options.count >= COUNT;
    let enough = enough(&tallies);
    let inputs: u64 = tallies.iter().map(Tally::inputs).sum();
    let both: u64 = tallies.iter().map(|t| t.with_rust_side().0).sum();
    let differences: u64 = tallies.iter().map(Tally::differences).sum();
    println!("{inputs} inputs compared, {both} with a Rust side, {differences} differences");
    if differences != 0 || whole && !enough {
        std::process::exit(1);
    }
}

const NOT_GIVEN: &str = "14 and 15 are never given: evr0_section/Stages.never_14_15.
61 and 62 have no Rust side: they are compared with document 01.
Marks and what they authorise have none either, nor have locks: they are compared with plain lines from document 02 over the Rust's records.
Tables of rules have none either: they are compared with plain lines, and sections by other rules than the four with a model.
Two sections held against each other have none either: they are compared with plain lines by two ordered maps.
Schema 2 has none either: it is compared with a model, and where a section has a twin of schema 1 with the Rust's answer to that.
Rounds have none either: they are compared with plain lines, and with the Rust's depths where it accepts.
Sections by column have none either: they are compared with plain lines, and what is rebuilt from columns with the Rust or the model.";

/// Whether every condition that can be reached, and every value that is counted, was met often enough, and a tenth of the sections, of the blocks and of the files was accepted.
fn enough(tallies: &[Tally]) -> bool {
    let mut enough = true;
    for tally in tallies {
        for ((number, condition), count) in tally.too_few() {
            println!("fewer than {LEAST}: {number} {condition}, {count}");
            enough = false;
        }
        for (value, count) in tally.too_few_values() {
            println!("fewer than {LEAST}: {value}, {count}");
            enough = false;
        }
        let (both, accepted) = tally.with_rust_side();
        if accepted * 10 < both {
            println!("fewer than a tenth accepted: {accepted} of {both}");
            enough = false;
        }
    }
    enough
}

struct Options {
    seed: u64,
    count: usize,
    part: Option<String>,
}

fn options() -> Option<Options> {
    let mut options = Options {
        seed: 1,
        count: COUNT,
        part: None,
    };
    let mut args = std::env::args().skip(1);
    while let Some(name) = args.next() {
        let value = args.next()?;
        match name.as_str() {
            "--seed" => options.seed = value.parse().ok()?,
            "--count" => options.count = value.parse().ok()?,
            "--part" => options.part = Some(value),
            _ => return None,
        }
    }
    Some(options)
}

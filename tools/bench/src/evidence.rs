//! The program `evidence`: a process of it against a process of this one that decodes with the Rust and writes the same lines.

use crate::rows::{Calls, Plan, Row, calls, plan};
use crate::sections::Make;
use inputs::random::Random;
use inputs::shapes;
use std::fmt::Write as _;
use std::io::{Read, Write};
use std::path::Path;
use std::process::{Command, Stdio};

const PROGRAM: &str = concat!(
    env!("CARGO_MANIFEST_DIR"),
    "/../../crates/evidence/out/evidence"
);

pub fn rows() -> Vec<Plan> {
    vec![
        of("evidence, specimen 4", shapes::two_proofs),
        of("evidence, OPs on one witness, 64 KiB", |r| {
            shapes::ops_on_one(r, 1330)
        }),
    ]
}

fn of(name: &str, make: Make) -> Plan {
    plan(name, move |name| {
        let section = make(&mut Random::new(1)).bytes();
        assert!(section.len() <= 65_536, "longer than `evidence` reads");
        let this = std::env::current_exe().expect("the path of this program");
        Row {
            name,
            bytes: section.len(),
            rust: runs(&this, &["--evidence"], section.clone()),
            port: runs(Path::new(PROGRAM), &[], section),
        }
    })
}

/// Runs of a program that gets the section; a summary of what it writes.
fn runs(program: &Path, args: &'static [&str], section: Vec<u8>) -> Calls {
    let program = program.to_owned();
    calls(move || {
        let mut child = Command::new(&program)
            .args(args)
            .stdin(Stdio::piped())
            .stdout(Stdio::piped())
            .spawn()
            .expect("a program: rt run writes it");
        let mut input = child.stdin.take().expect("a pipe");
        input.write_all(&section).expect("a reader");
        drop(input);
        let output = child.wait_with_output().expect("an output").stdout;
        assert!(!output.is_empty());
        output.iter().fold(0, |sum: u64, &b| {
            sum.wrapping_mul(31).wrapping_add(b.into())
        })
    })
}

/// What `evidence` writes of an accepted section on standard input, from the Rust.
pub fn by_the_rust() {
    let mut bytes = Vec::new();
    std::io::stdin().read_to_end(&mut bytes).expect("an input");
    let (section, decoded) = oracle::section::section(&bytes, 0).expect("an accepted section");
    let mut lines = String::from("EVR0");
    for count in section.head.counts.iter().chain([&section.cursor]) {
        let _ = write!(lines, " {count}");
    }
    lines.push('\n');
    for (proof, depth) in decoded.proofs.iter().zip(&section.tables.depths) {
        let _ = writeln!(
            lines,
            "{} {} {} {depth} {}",
            proof.proof_id, proof.proposition_index, proof.authority_context, proof.witness_count
        );
    }
    std::io::stdout()
        .write_all(lines.as_bytes())
        .expect("an output");
}

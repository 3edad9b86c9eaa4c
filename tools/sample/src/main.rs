//! Prints inputs with the Rust's answers, and for sections of schema 2 with the model's, a line each:
//!
//!     section HEX CURSOR TAB ANSWER
//!     block HEX BASE REVISION TAB ANSWER
//!     functions HEX CURSOR REVISION TAB ANSWER
//!     ruled TABLE HEX CURSOR TAB ANSWER
//!     compared HEX CURSOR HEX CURSOR ROOM TAB ANSWER
//!     columns rebuilt HEX TAB ANSWER
//!     columns columns_of HEX TAB ANSWER
//!
//! `ruled` are sections by the rules of a table, from the model and the plain lines; `compared` pairs of sections with room for so many verdicts, and
//! `columns` column files with the bytes that they give, and sections with their columns, both from the plain lines. Either so many for each refusal
//! number and condition that random inputs reach, or the inputs of fixed.rs, or those that standard input
//! has, a line each, as they are printed.

mod fixed;

use inputs::cases::{self, AS_IT_IS, BlockCase, FileCase, Form, SectionCase};
use inputs::random::Random;
use inputs::wide::wide;
use inputs::{block_conditions, compared, function_conditions, ruled, section_conditions};
use oracle::compare::Whose;
use oracle::lines::{block_line, functions_line, hex, ruled_line, section_line};
use oracle::section::{Judge, schema};
use std::collections::BTreeMap;

const USAGE: &str =
    "usage: sample section|wide|block|functions|ruled|compared|columns SEED EACH LONGEST [ACCEPTED]
       sample fixed
       sample given";

/// How many inputs are looked at.
const TRIES: usize = 400_000;

fn main() {
    let args: Vec<String> = std::env::args().skip(1).collect();
    let numbers: Option<Vec<usize>> = args.iter().skip(1).map(|n| n.parse().ok()).collect();
    let (what, numbers) = (
        args.first().map(String::as_str),
        numbers.unwrap_or_default(),
    );
    match (what, &numbers[..]) {
        (Some("fixed"), []) => fixed::print(),
        (Some("given"), []) => given(),
        (Some(form), &[seed, each, longest]) => random(form, seed, picked(each, each), longest),
        (Some(form), &[seed, each, longest, accepted]) => {
            random(form, seed, picked(each, accepted), longest)
        }
        _ => usage(),
    }
}

fn random(form: &str, seed: usize, picked: Picked, longest: usize) {
    match form {
        "section" => sections(seed, picked, longest, 1),
        "wide" => sections(seed, picked, longest, 2),
        "block" => blocks(seed, picked, longest),
        "functions" => files(seed, picked, longest),
        "ruled" => ruled(seed, picked, longest),
        "compared" => pairs(seed, picked, longest),
        "columns" => columns(seed, picked, longest),
        _ => usage(),
    }
}

fn usage() {
    eprintln!("{USAGE}");
    std::process::exit(2);
}

/// Counts inputs by what they led to.
struct Picked {
    each: usize,
    accepted: usize,
    by_outcome: BTreeMap<(u8, &'static str), usize>,
}

impl Picked {
    fn wants(&mut self, number: u8, condition: &'static str) -> bool {
        let count = self.by_outcome.entry((number, condition)).or_default();
        *count += 1;
        *count
            <= if number == 0 {
                self.accepted
            } else {
                self.each
            }
    }
}

fn picked(each: usize, accepted: usize) -> Picked {
    Picked {
        each,
        accepted,
        by_outcome: BTreeMap::new(),
    }
}

/// Of schema 2, or, where schema 1 is asked for, of every other.
fn sections(seed: usize, mut picked: Picked, longest: usize, asked: u16) {
    let form: Form = if asked == 2 { wide } else { AS_IT_IS };
    let mut r = Random::new(seed as u64);
    for _ in 0..TRIES {
        let case = cases::section_in(&mut r, form);
        let is_wide = schema(&case.file, case.cursor) == Some(2);
        if case.file.len() > longest || is_wide != (asked == 2) {
            continue;
        }
        let judge = Judge::Rust.of(&case.file, case.cursor);
        let (number, condition) = match judge.section(&case.file, case.cursor) {
            Ok(_) => (0, ""),
            Err(refusal) => {
                let condition = section_conditions::condition(&case.file, case.cursor, &refusal);
                (refusal.number, condition)
            }
        };
        if picked.wants(number, condition) {
            section(&case);
        }
    }
}

fn blocks(seed: usize, mut picked: Picked, longest: usize) {
    let mut r = Random::new(seed as u64);
    for _ in 0..TRIES {
        let case = cases::block(&mut r);
        if case.code.len() > longest {
            continue;
        }
        let (number, condition) = match oracle::block::block(&case.code, case.base, case.revision) {
            Ok(_) => (0, block_conditions::accepted(case.revision)),
            Err(refusal) => {
                let condition = block_conditions::condition(&case.code, case.base, &refusal);
                (refusal.number, condition)
            }
        };
        if picked.wants(number, condition) {
            block(&case);
        }
    }
}

fn files(seed: usize, mut picked: Picked, longest: usize) {
    let mut r = Random::new(seed as u64);
    for _ in 0..TRIES {
        let case = cases::functions(&mut r);
        let FileCase {
            ref file,
            cursor,
            revision,
        } = case;
        if file.len() > longest {
            continue;
        }
        let (number, condition) = match oracle::functions::functions(file, cursor, revision) {
            Ok(found) => (0, function_conditions::accepted(found.functions.len())),
            Err(refusal) => {
                let condition = function_conditions::condition(file, cursor, &refusal);
                (refusal.number, condition)
            }
        };
        if picked.wants(number, condition) {
            functions(&case);
        }
    }
}

/// Tables, some of which are refused, with sections by their rules.
fn ruled(seed: usize, mut picked: Picked, longest: usize) {
    let mut r = Random::new(seed as u64);
    for _ in 0..TRIES {
        let (mut table, case) = ruled::section(&mut r);
        if r.one_in(3) {
            table = ruled::damaged(&mut r, table);
        }
        let table = table.bytes();
        if table.len() + case.file.len() > longest {
            continue;
        }
        let (number, condition) = match oracle::rules::load(&table) {
            Err(wrong) => wrong,
            Ok(rules) => {
                let judge = Judge::Ruled(&rules).of(&case.file, case.cursor);
                match judge.section(&case.file, case.cursor) {
                    Ok(_) => (0, ""),
                    Err(refusal) => (refusal.number, ""),
                }
            }
        };
        if picked.wants(number, condition) {
            let answer = ruled_line(&table, &case.file, case.cursor);
            let (table, file) = (hex_or_none(&table), hex_or_none(&case.file));
            println!("ruled {table} {file} {}\t{}", case.cursor, told(answer));
        }
    }
}

/// Pairs of sections, of which some are damaged, some have other source sets, and some too short a table.
fn pairs(seed: usize, mut picked: Picked, longest: usize) {
    let mut r = Random::new(seed as u64);
    for _ in 0..TRIES {
        let [first, mut second] = compared::pair(&mut r);
        if r.one_in(8) {
            compared::other_source_set(&mut r, &mut second);
        }
        let damaged = r.below(8);
        let [first, second] = [first, second].map(|section| section.bytes());
        let cut = |bytes: &[u8], is_cut: bool| bytes[..bytes.len() - is_cut as usize].to_vec();
        let (first, second) = (cut(&first, damaged == 0), cut(&second, damaged <= 1));
        if first.len() + second.len() > longest {
            continue;
        }
        let cursor = r.below(4);
        let second = [&vec![0; cursor], &second[..]].concat();
        let sections = [(&first, 0), (&second, cursor)].map(|(file, cursor)| {
            let judge = Judge::Rust.of(file, cursor);
            judge.section(file, cursor).map(|(_, decoded)| decoded)
        });
        let room = r.below(10);
        let found = oracle::compare::compare(&sections[0], &sections[1], cursor, room);
        let (number, condition) = match &found {
            Ok(list) => {
                let [agreed, contradicted, ..] = oracle::compare::totals(list);
                let condition = match (agreed, contradicted) {
                    (0, 0) if list.is_empty() => "no proposition",
                    (0, 0) => "apart",
                    (_, 0) => "agreed",
                    _ => "contradicted",
                };
                (0, condition)
            }
            Err((Whose::First, refusal)) => (refusal.number, "first"),
            Err((Whose::Second, refusal)) => (refusal.number, "second"),
            Err((Whose::Pair, refusal)) => (refusal.number, "pair"),
        };
        if picked.wants(number, condition) {
            let answer = match found {
                Ok(list) => {
                    let verdicts: Vec<String> =
                        list.iter().map(|entry| entry.1.to_string()).collect();
                    let totals = oracle::compare::totals(&list).map(|total| total.to_string());
                    format!(
                        "ok verdicts={} totals={}",
                        verdicts.join(","),
                        totals.join(",")
                    )
                }
                Err((_, refusal)) => format!("{condition} {refusal}"),
            };
            let (first, second) = (hex(&first), hex(&second));
            println!("compared {first} 0 {second} {cursor} {room}\t{answer}");
        }
    }
}

/// Column files, and what each gives; of those that give a section the columns of that.
fn columns(seed: usize, mut picked: Picked, longest: usize) {
    let mut r = Random::new(seed as u64);
    for _ in 0..TRIES {
        let file = inputs::columns::small(&mut r);
        if file.len() > longest {
            continue;
        }
        let taken = oracle::columns::take(&file);
        let (number, condition) = match &taken {
            Ok(_) => (0, ""),
            Err((number, _, why)) => (*number, *why),
        };
        if !picked.wants(number, condition) {
            continue;
        }
        let answer = match &taken {
            Ok(section) => format!("ok {}", hex(section)),
            Err((number, offset, _)) => format!("refused Added {number} {offset}"),
        };
        println!("columns rebuilt {}\t{answer}", hex_or_none(&file));
        if let Ok(section) = taken {
            println!("columns columns_of {}\tok {}", hex(&section), hex(&file));
        }
    }
}

/// In hexadecimal, or a dash where there is no byte.
fn hex_or_none(bytes: &[u8]) -> String {
    match bytes {
        [] => "-".to_string(),
        _ => hex(bytes),
    }
}

fn given() {
    for line in std::io::stdin().lines() {
        let line = line.expect("text");
        let words: Vec<&str> = line.split(' ').collect();
        let number = |at: usize| words[at].parse().expect("a decimal number of 64 bits");
        match words[..] {
            ["section", hex, _] => section(&SectionCase {
                file: bytes(hex),
                cursor: number(2),
            }),
            ["functions", hex, _, revision] => functions(&FileCase {
                file: bytes(hex),
                cursor: number(2),
                revision: revision.parse().expect("a decimal number of 16 bits"),
            }),
            ["block", hex, _, revision] => block(&BlockCase {
                code: bytes(hex),
                base: number(2),
                revision: revision.parse().expect("a decimal number of 16 bits"),
            }),
            _ => panic!("no input: {line}"),
        }
    }
}

fn bytes(hex: &str) -> Vec<u8> {
    let digit = |at: usize| u8::from_str_radix(&hex[at..at + 2], 16).expect("hexadecimal");
    (0..hex.len()).step_by(2).map(digit).collect()
}

fn section(case: &SectionCase) {
    let answer = section_line(&case.file, case.cursor);
    println!(
        "section {} {}\t{}",
        hex(&case.file),
        case.cursor,
        told(answer)
    );
}

fn block(case: &BlockCase) {
    let answer = block_line(&case.code, case.base, case.revision);
    let code = hex(&case.code);
    println!(
        "block {code} {} {}\t{}",
        case.base,
        case.revision,
        told(answer)
    );
}

fn functions(case: &FileCase) {
    let answer = functions_line(&case.file, case.cursor, case.revision);
    let file = hex(&case.file);
    println!(
        "functions {file} {} {}\t{}",
        case.cursor,
        case.revision,
        told(answer)
    );
}

fn told(answer: answers::Answer<String>) -> String {
    answer.map_or_else(|refusal| refusal.to_string(), |line| format!("ok {line}"))
}

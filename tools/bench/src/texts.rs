//! Text of 8, 64 and 4,096 bytes: the scan against `from_utf8` followed by `chars().any(char::is_control)`.

use crate::rows::{Plan, Row, calls, plan};
use inputs::random::Random;
use inputs::text::well_formed;
use std::hint::black_box;

const SIZES: [usize; 3] = [8, 64, 4096];

pub fn rows() -> Vec<Plan> {
    let mut rows = Vec::new();
    for size in SIZES {
        rows.push(plan(&format!("text, ASCII, {size}"), move |name| {
            row(name, &[ascii(&mut Random::new(1), size)])
        }));
        rows.push(plan(&format!("text, mixed, {size}"), move |name| {
            row(name, &[mixed(&mut Random::new(3), size)])
        }));
        rows.push(plan(&format!("text, CJK, {size}"), move |name| {
            row(name, &[cjk(size)])
        }));
    }
    rows.push(plan("text, CJK, 3", |name| row(name, &[cjk(3)])));
    rows.push(plan("text, CJK, 6", |name| row(name, &[cjk(6)])));
    rows.push(plan("text, CJK and two letters, 8", |name| {
        row(name, &["\u{6f22}\u{5b57}xx".into()])
    }));
    rows.push(plan("texts, 100 mixed ones of 8", |name| {
        let r = &mut Random::new(1);
        let texts: Vec<Vec<u8>> = (0..100).map(|_| mixed(r, 8)).collect();
        row(name, &texts)
    }));
    rows
}

fn ascii(r: &mut Random, size: usize) -> Vec<u8> {
    (0..size).map(|_| r.within(0x20, 0x7e) as u8).collect()
}

/// Characters of 1 to 4 bytes, filled up with letters.
fn mixed(r: &mut Random, size: usize) -> Vec<u8> {
    let mut bytes = well_formed(r, size - 3);
    bytes.resize(size, b'x');
    bytes
}

/// Characters of 3 bytes, after one or two letters where the size asks for them.
fn cjk(size: usize) -> Vec<u8> {
    let mut bytes = vec![b'x'; size % 3];
    for number in 0..size / 3 {
        let c = char::from_u32(0x4e00 + number as u32).expect("a character");
        bytes.extend(c.to_string().bytes());
    }
    bytes
}

fn row(name: String, texts: &[Vec<u8>]) -> Row {
    let (texts, same) = (texts.to_vec(), texts.to_vec());
    Row {
        name,
        bytes: texts.iter().map(Vec::len).sum(),
        rust: calls(move || {
            let summaries = same.iter().map(|text| rust_summary(black_box(text)));
            summaries.sum()
        }),
        port: calls(move || {
            let summaries = texts.iter().map(|text| port_summary(black_box(text)));
            summaries.sum()
        }),
    }
}

fn rust_summary(bytes: &[u8]) -> u64 {
    match std::str::from_utf8(bytes) {
        Ok(text) => 1 + text.chars().any(char::is_control) as u64,
        Err(_) => 0,
    }
}

fn port_summary(bytes: &[u8]) -> u64 {
    match port::utf8::scan(bytes) {
        Some(scanned) => 1 + scanned.control as u64,
        None => 0,
    }
}

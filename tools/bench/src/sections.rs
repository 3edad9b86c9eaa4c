//! Sections. The Rust copies the records into vectors; the port writes starts and depths to lent tables, whose lengths a row states.

use crate::rows::{Plan, Row, calls, plan};
use answers::Answer;
use answers::section::Head;
use inputs::random::Random;
use inputs::section::Section;
use inputs::shapes;
use oracle::evr0::{DecodedEvr0, Evr0Error, decode_evr0_section};
use std::cell::RefCell;
use std::hint::black_box;

const FULL: usize = 65_536;

/// Proofs of a large section.
const MANY: u32 = 40_000;

pub type Make = fn(&mut Random) -> Section;

pub const SHAPES: [(&str, Make); 3] = [
    ("joins in 250 layers", |r| shapes::layers(r, 250, 160)),
    ("witnesses and OPs", |r| shapes::witnesses_and_ops(r, MANY)),
    ("OPs on one witness", |r| shapes::ops_on_one(r, MANY)),
];

pub fn rows() -> Vec<Plan> {
    let fitted = [1, MANY as usize, MANY as usize];
    let mut rows = Vec::new();
    for (name, make) in SHAPES {
        for (length, rooms) in [("fitted", fitted), ("of 65,536", [FULL; 3])] {
            let name = format!("section, 40,000 proofs, {name}, tables {length}");
            rows.push(one(&name, rooms, make));
        }
    }
    rows.extend([
        one(
            "section, 65,536 propositions, tables fitted",
            [FULL, 0, 0],
            |r| shapes::many_propositions(r, 65_536, 49),
        ),
        one(
            "section, specimen 4, tables fitted",
            [1, 2, 2],
            shapes::two_proofs,
        ),
        one(
            "section, specimen 4, tables of 65,536",
            [FULL; 3],
            shapes::two_proofs,
        ),
        plan("sections, 100 small ones, tables of 16", |name| {
            let r = &mut Random::new(1);
            let small: Vec<Vec<u8>> = (0..100).map(|_| shapes::small(r).bytes()).collect();
            row(name, &small, [16; 3])
        }),
        one(
            "section, specimen 4, refused early, tables fitted",
            [1, 2, 2],
            |r| early(shapes::two_proofs(r)),
        ),
        one(
            "section, specimen 4, refused late, tables fitted",
            [1, 2, 2],
            |r| late(shapes::two_proofs(r)),
        ),
        one(
            "section, 40,000 proofs, refused early, tables fitted",
            fitted,
            |r| early(shapes::witnesses_and_ops(r, MANY)),
        ),
        one(
            "section, 40,000 proofs, refused late, tables fitted",
            fitted,
            |r| late(shapes::witnesses_and_ops(r, MANY)),
        ),
    ]);
    rows
}

fn one(name: &str, rooms: [usize; 3], make: Make) -> Plan {
    plan(name, move |name| {
        row(name, &[make(&mut Random::new(1)).bytes()], rooms)
    })
}

/// Refused at its first field.
fn early(mut section: Section) -> Section {
    section.schema = 3;
    section
}

/// Refused at its last parent.
fn late(mut section: Section) -> Section {
    if let Some(parent) = section.parents.last_mut() {
        *parent = u32::MAX;
    }
    section
}

fn row(name: String, files: &[Vec<u8>], rooms: [usize; 3]) -> Row {
    let tables = RefCell::new(rooms.map(|room| vec![0; room]));
    for file in files {
        let rust = oracle::section::section(file, 0).map(|(section, _)| section);
        let answer = port(file, &mut tables.borrow_mut()).0;
        assert_eq!(
            rust.as_ref().map(|s| s.head),
            answer.as_ref().copied(),
            "{name}"
        );
        if let Ok(s) = rust {
            let starts = [s.tables.propositions, s.tables.proofs, s.tables.depths];
            for (mut wanted, table) in starts.into_iter().zip(&*tables.borrow()) {
                wanted.resize(table.len(), 0);
                assert_eq!(&wanted, table, "{name}");
            }
        }
    }
    let (files, same) = (files.to_vec(), files.to_vec());
    Row {
        name,
        bytes: files.iter().map(Vec::len).sum(),
        rust: calls(move || {
            same.iter()
                .map(|file| rust_summary(black_box(file)))
                .fold(0, u64::wrapping_add)
        }),
        port: calls(move || {
            let tables = &mut *tables.borrow_mut();
            let summaries = files
                .iter()
                .map(|file| port_summary(port(black_box(file), tables)));
            summaries.fold(0, u64::wrapping_add)
        }),
    }
}

fn port(file: &[u8], tables: &mut [Vec<u64>; 3]) -> (Answer<Head>, usize) {
    let [propositions, proofs, depths] = tables;
    port::section::decode_evr0_unmarked(file, 0, propositions, proofs, depths)
}

pub fn rust_summary(file: &[u8]) -> u64 {
    let mut cursor = 0;
    let decoded = decode_evr0_section(file, &mut cursor);
    summary(decoded, cursor)
}

/// Counts, epoch and cursor of a result; the offset of a refusal.
pub fn summary(decoded: Result<DecodedEvr0, Evr0Error>, cursor: usize) -> u64 {
    match decoded {
        Ok(d) => {
            let counts =
                d.propositions.len() + d.proofs.len() + d.witnesses.len() + d.parents.len();
            (counts + d.epoch as usize + cursor) as u64
        }
        Err(error) => error.offset as u64,
    }
}

pub fn port_summary((answer, cursor): (Answer<Head>, usize)) -> u64 {
    match answer {
        Ok(head) => (head.counts.iter().sum::<usize>() + head.epoch as usize + cursor) as u64,
        Err(refusal) => refusal.offset as u64,
    }
}

//! Questions about a section: a record by its number, the way down. The Rust decodes and then looks; the port's functions decode too, with
//! tables as long as the counts.

use crate::rows::{Plan, Row, calls, plan};
use falgnust::calls::{self as port, SectionTables};
use inputs::random::Random;
use inputs::section::Section;
use inputs::shapes;
use oracle::evr0::{DecodedEvr0, decode_evr0_section};
use std::cell::RefCell;
use std::hint::black_box;

type Make = fn(&mut Random) -> Section;

const PROOFS: u32 = 40_000;

/// Most moves of a way down.
const MOVES: u64 = 256;

const JOINS: Make = |r| shapes::layers(r, 250, 160);
const OPS: Make = |r| shapes::witnesses_and_ops(r, PROOFS);
const PROPOSITIONS: Make = |r| shapes::many_propositions(r, 65_536, 49);

pub fn rows() -> Vec<Plan> {
    vec![
        asked(
            "asked, the last of 65,536 propositions",
            PROPOSITIONS,
            |s| u64::from(s.propositions[65_535].ast_owner_id),
            |bytes, lent| u64::from(port::proposition_number(bytes, 0, 65_535, lent).ast_owner_id),
        ),
        asked(
            "asked, the last of 40,000 proofs",
            OPS,
            |s| u64::from(s.proofs[PROOFS as usize - 1].parent_first),
            |bytes, lent| u64::from(port::proof_number(bytes, 0, PROOFS - 1, lent).parent_first),
        ),
        asked(
            "asked, the first witness of 40,000 proofs",
            OPS,
            |s| u64::from(s.witnesses[0].source_end),
            |bytes, lent| port::witness_number(bytes, 0, 0, lent).source_end,
        ),
        asked(
            "asked, the first parent of 40,000 proofs, joins",
            JOINS,
            |s| u64::from(s.parents[0]),
            |bytes, lent| u64::from(port::parent_number(bytes, 0, 0, lent).proof_id),
        ),
        asked(
            "asked, the way down from the last of 40,000 proofs, joins",
            JOINS,
            moves,
            |bytes, lent| port::way_down(bytes, 0, PROOFS - 1, MOVES, lent).moves,
        ),
    ]
}

/// The moves of the way down from the last proof: the first parent of each, until there is none.
fn moves(section: &DecodedEvr0) -> u64 {
    let (mut number, mut moves) = (PROOFS as usize - 1, 0);
    while section.proofs[number].parent_count != 0 && moves < MOVES {
        number = section.parents[section.proofs[number].parent_first as usize] as usize;
        moves += 1;
    }
    moves
}

fn asked(
    name: &str,
    make: Make,
    rust: fn(&DecodedEvr0) -> u64,
    port: fn(&[u8], SectionTables) -> u64,
) -> Plan {
    plan(name, move |name| {
        let section = make(&mut Random::new(1));
        let rooms = [
            section.propositions.len(),
            section.proofs.len(),
            section.proofs.len(),
        ];
        let tables = RefCell::new(rooms.map(|room| vec![0; room]));
        let bytes = section.bytes();
        let same = bytes.clone();
        Row {
            name,
            bytes: bytes.len(),
            rust: calls(move || {
                let decoded = decode_evr0_section(black_box(&same), &mut 0);
                rust(&decoded.expect("a valid section"))
            }),
            port: calls(move || {
                let [propositions, proofs, depths] = &mut *tables.borrow_mut();
                let lent = SectionTables {
                    propositions,
                    proofs,
                    depths,
                };
                port(black_box(&bytes), lent)
            }),
        }
    })
}

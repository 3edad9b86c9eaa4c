//! Two sections and the eleven tables that are lent to compare them: what a call leaves in them, and what it is to leave.

use crate::block_compare::{OLD, OLD_BYTE, lent};
use crate::by::By;
use crate::tally::hex;
use answers::Answer;
use answers::refusal::Refusal;
use answers::section::Section;
use falgnust::calls::{Lent, SectionTables};
use falgnust::raw;
use inputs::cases::SectionCase;
use oracle::compare::{self, List, Whose};
use oracle::marks;
use oracle::records::DecodedEvr0;

/// Two sections, each in its bytes at its cursor; one part of bytes may serve as both.
pub struct Pair {
    first: SectionCase,
    /// None where the second stands in the first's bytes.
    second: Option<Vec<u8>>,
    second_cursor: usize,
}

/// Some bytes and a cursor.
pub type At<'a> = (&'a [u8], usize);

impl Pair {
    pub fn new(first: SectionCase, second: SectionCase) -> Self {
        Pair {
            first,
            second: Some(second.file),
            second_cursor: second.cursor,
        }
    }

    /// One after the other, and bytes between them.
    pub fn in_one_file(first: &[u8], between: &[u8], second: &[u8]) -> Self {
        Pair {
            second_cursor: first.len() + between.len(),
            second: None,
            first: SectionCase {
                file: [first, between, second].concat(),
                cursor: 0,
            },
        }
    }

    pub fn is_one_file(&self) -> bool {
        self.second.is_none()
    }

    pub fn first(&self) -> At<'_> {
        (&self.first.file, self.first.cursor)
    }

    pub fn second(&self) -> At<'_> {
        let file = self.second.as_ref().unwrap_or(&self.first.file);
        (file, self.second_cursor)
    }

    pub fn told(&self) -> String {
        let [(first, a), (second, b)] = [self.first(), self.second()];
        format!("cursors {a} and {b}, {} and {}", hex(first), hex(second))
    }
}

/// Room for propositions, proofs, depths, marks and authorised.
pub type Rooms = [usize; 5];

/// What is lent for a section.
#[derive(Debug, PartialEq, Eq)]
pub struct Tables {
    numbers: [Vec<u64>; 3],
    bytes: [Vec<u8>; 2],
}

impl Tables {
    /// Full of other bytes.
    pub fn old([propositions, proofs, depths, marks, authorised]: Rooms) -> Self {
        Tables {
            numbers: [propositions, proofs, depths].map(|room| vec![OLD; room]),
            bytes: [marks, authorised].map(|room| vec![OLD_BYTE; room]),
        }
    }

    pub fn lent<'a>(&'a mut self, (bytes, cursor): At<'a>) -> Lent<'a> {
        let [propositions, proofs, depths] = &mut self.numbers;
        let [marks, authorised] = &mut self.bytes;
        Lent {
            bytes,
            cursor,
            tables: SectionTables {
                propositions,
                proofs,
                depths,
            },
            marks,
            authorised,
        }
    }
}

/// A section as the Rust, or the model, decodes it, with what plain lines say of it.
pub struct Known {
    pub section: Section,
    pub decoded: DecodedEvr0,
    marks: Vec<u8>,
    pub authorised: Vec<bool>,
}

pub fn known(by: By, (file, cursor): At) -> Answer<Known> {
    let found = by.of(file, cursor).expected(file, cursor);
    found.map(|(section, decoded)| {
        let marks = marks::marks(&decoded);
        Known {
            authorised: compare::authorised(&decoded, &marks),
            marks,
            section,
            decoded,
        }
    })
}

impl Known {
    /// As long as the counts.
    pub fn rooms(&self) -> Rooms {
        let [propositions, proofs, ..] = self.section.head.counts;
        [propositions, proofs, proofs, proofs, propositions]
    }

    /// What the section leaves in its tables.
    pub fn left(&self, [propositions, proofs, depths, marks, authorised]: Rooms) -> Tables {
        let tables = &self.section.tables;
        let mut told: Vec<u8> = self.authorised.iter().map(|told| *told as u8).collect();
        told.resize(authorised, 0);
        Tables {
            numbers: [
                lent(&tables.propositions, propositions),
                lent(&tables.proofs, proofs),
                lent(&tables.depths, depths),
            ],
            bytes: [marks::lent(&self.marks, marks), told],
        }
    }
}

/// What a refusal leaves.
pub fn zeros([propositions, proofs, depths, marks, authorised]: Rooms) -> Tables {
    Tables {
        numbers: [propositions, proofs, depths].map(|room| lent(&[], room)),
        bytes: [marks, authorised].map(|room| vec![0; room]),
    }
}

/// Room enough: for a section that is accepted exactly, else for what its bytes can hold.
pub fn rooms(known: &Answer<Known>, (file, _): At) -> Rooms {
    let (propositions, proofs) = (file.len() / 15 + 1, file.len() / 35 + 1);
    match known {
        Ok(known) => known.rooms(),
        Err(_) => [propositions, proofs, proofs, proofs, propositions],
    }
}

/// An answer, and all eleven tables after it.
#[derive(Debug, PartialEq, Eq)]
pub struct Called {
    answer: raw::Comparison,
    tables: [Tables; 2],
    verdicts: Vec<u8>,
}

/// What the port says.
pub fn call(pair: &Pair, by: By, rooms: [Rooms; 2], room: usize) -> Called {
    call_by(pair, rooms, room, |first, second, verdicts| {
        by.compare(first, second, verdicts)
    })
}

/// What a call says.
pub fn call_by(
    pair: &Pair,
    rooms: [Rooms; 2],
    room: usize,
    call: impl FnOnce(Lent, Lent, &mut [u8]) -> raw::Comparison,
) -> Called {
    let mut tables = rooms.map(Tables::old);
    let mut verdicts = vec![OLD_BYTE; room];
    let [first, second] = &mut tables;
    let (first, second) = (first.lent(pair.first()), second.lent(pair.second()));
    Called {
        answer: call(first, second, &mut verdicts),
        tables,
        verdicts,
    }
}

/// What it is to say where both are compared.
pub fn compared(sections: [&Known; 2], list: &List, rooms: [Rooms; 2], room: usize) -> Called {
    let [agreed, contradicted, first_only, second_only] = compare::totals(list);
    Called {
        answer: raw::Comparison {
            accepted: true,
            agreed,
            contradicted,
            first_only,
            second_only,
            ..Default::default()
        },
        tables: [sections[0].left(rooms[0]), sections[1].left(rooms[1])],
        verdicts: compare::lent(list, room),
    }
}

/// What it is to say where they are not, and whose refusal it is by its number in C.
pub fn refused(whose: u8, refusal: Refusal, rooms: [Rooms; 2], room: usize) -> Called {
    Called {
        answer: raw::Comparison {
            whose,
            refusal: raw::Refusal {
                kind: refusal.kind as u8,
                number: refusal.number,
                offset: refusal.offset,
            },
            ..Default::default()
        },
        tables: rooms.map(zeros),
        verdicts: vec![0; room],
    }
}

pub const RULES: u8 = 1;

pub fn in_c(whose: Whose) -> u8 {
    match whose {
        Whose::First => 2,
        Whose::Second => 3,
        Whose::Pair => 4,
    }
}

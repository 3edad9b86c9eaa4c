//! Sections of schema 2, which the Rust refuses with 10: held to a model, the Rust with its few places edited (`evr0_wide`; by the rules of a table
//! `evr0_wide_ruled`). The inputs are those of part `sections` in schema 2, by the four, in turn as they stand and loaded in some order; the edges
//! of the request; sections by other rules; and twins. A twin is a section of schema 1 written in schema 2: its answer, tables, records and marks
//! have to be those of the section of schema 1 by the Rust, but for places behind a span. Sections of schema 1 are left out.

use crate::by::By;
use crate::four::ORDERS;
use crate::rules;
use crate::section_binding::{rust_told, section, told};
use crate::section_compare::{call_marked, compare_by, expected, rooms, what};
use crate::sections::{at_start, cuts, each};
use crate::tally::{Outcome, Tally};
use answers::Answer;
use answers::refusal::Refusal;
use inputs::cases::SectionCase;
use inputs::random::Random;
use inputs::ruled;
use inputs::section::Section;
use inputs::section_conditions::{OF_SCHEMA_2, REACHABLE};
use inputs::section_faults::damaged;
use inputs::text::Text;
use inputs::wide::{place_in_twin, twin, wide};
use inputs::{marked, shapes};
use oracle::evr0::Evr0Error;
use oracle::marks::{lent, marks};
use oracle::records::DecodedEvr0;
use oracle::section::schema;
use std::sync::LazyLock;

/// Sections at random, twins, and sections by other rules, for so many of the count.
const SHARE: usize = 2;
const TWINS: usize = 4;
const RULED: usize = 8;

/// How many more sections are looked at for twins that were met too seldom, for each one of the count.
const TRIES: usize = 20;

/// The four are loaded for one section of so many, and the marks of one of so many are compared.
const LOADED: u64 = 3;
const MARKED: u64 = 5;

/// What a section of schema 2 can meet, and what its twin can.
static ALL: LazyLock<Vec<Outcome>> = LazyLock::new(|| {
    let twins = [0, 1, 6, 7, 8, 9, 11].into_iter().chain(16..=29);
    let twins = twins.map(|number| (number, TWIN));
    let further = [(0, "marks"), (0, "by other rules")];
    [&REACHABLE[..], &OF_SCHEMA_2, &further]
        .concat()
        .into_iter()
        .chain(twins)
        .collect()
});

const TWIN: &str = "twin";

pub fn run(r: &mut Random, count: usize) -> Tally {
    let mut tally = Tally::alone("wide", &ALL);
    edges(&mut tally, r);
    twins(&mut tally, r, count);
    for _ in 0..count / RULED {
        let (table, case) = ruled::section_in(r, wide);
        rules::section(&mut tally, &table.bytes(), &case);
    }
    for _ in 0..count / RULED {
        let section = match r.one_in(2) {
            true => marked::operations(r),
            false => marked::ruling(r),
        };
        compare(&mut tally, &at_start(wide(r, section).bytes()));
    }
    each(&mut tally, r, count / SHARE, wide, compare);
    tally
}

/// By the four, in turn as they stand and loaded in some order.
fn compare(tally: &mut Tally, case: &SectionCase) {
    if schema(&case.file, case.cursor) == Some(1) {
        return;
    }
    let number = tally.inputs();
    let by = match number.is_multiple_of(LOADED) {
        true => By::four_loaded(&ORDERS[number as usize % ORDERS.len()]),
        false => By::FOUR,
    };
    compare_by(tally, case, by.wide());
    if number.is_multiple_of(MARKED) {
        rules::marks(tally, case, by.wide());
    }
}

// ---- The edges of the request

fn edges(tally: &mut Tally, r: &mut Random) {
    schemas(tally);
    spans(tally, r);
    least_sizes(tally, r);
    long_kind(tally, r);
}

/// Each schema as a payload of its own: 10 before the flags are read, and 5 at the flags under schema 2; with one byte of the flags, too.
fn schemas(tally: &mut Tally) {
    for number in 0..=u16::MAX {
        let [first, second] = number.to_le_bytes();
        let payload = [first, second, 0];
        for length in 1..=3 {
            let mut file = b"EVR0".to_vec();
            file.extend((length as u32).to_le_bytes());
            file.extend(&payload[..length]);
            compare(tally, &at_start(file));
        }
    }
}

/// Starts and ends around the powers of two, and the same in their lower halves alone.
fn spans(tally: &mut Tally, r: &mut Random) {
    let mut all = vec![0, u64::MAX];
    for power in [1, 8, 31, 32, 33, 40, 63] {
        all.extend([(1 << power) - 1, 1 << power, (1 << power) + 1]);
    }
    for start in &all {
        for end in &all {
            for at in [0, 2] {
                let section = shapes::joined(r);
                let mut section = wide(r, section);
                (section.witnesses[at].start, section.witnesses[at].end) = (*start, *end);
                compare(tally, &at_start(section.bytes()));
            }
        }
    }
}

/// Each number of bytes around the least sizes of so many witnesses and parents: 13 counts 92 for a witness, and 84 is not enough.
fn least_sizes(tally: &mut Tally, r: &mut Random) {
    for witnesses in 1..=16u32 {
        for parents in 0..=2 {
            for bytes in 84 * witnesses - 1..=92 * witnesses + 1 {
                let section = Section::empty(r);
                let mut section = wide(r, section);
                section.counts[2..].copy_from_slice(&[Some(witnesses), Some(parents)]);
                section.more = vec![0; (bytes + 4 * parents) as usize];
                compare(tally, &at_start(section.bytes()));
            }
        }
    }
}

/// Every cut of a section whose kind is so long that 13 does not apply to them: 5 at the start of the field, in both halves of a span.
fn long_kind(tally: &mut Tally, r: &mut Random) {
    for shape in [shapes::one_proof, shapes::joined] {
        for _ in 0..10 {
            let section = shape(r);
            let mut section = wide(r, section);
            section.propositions[0].kind = Text::new(&[b'a'; 500]);
            cuts(tally, &section.bytes(), compare);
        }
    }
}

// ---- Twins

/// So many, and then more of the refusals that were met too seldom.
fn twins(tally: &mut Tally, r: &mut Random, count: usize) {
    let few = |tally: &Tally| tally.too_few().iter().any(|((_, of), _)| *of == TWIN);
    for number in 0..TRIES * count {
        let seldom = number >= count / TWINS;
        if seldom && !few(tally) {
            return;
        }
        let section = any(r);
        let Some(twin) = twin(&section) else {
            continue;
        };
        let rust = oracle::section::section(&section.bytes(), 0);
        let of = (
            rust.as_ref().map_or_else(|refusal| refusal.number, |_| 0),
            TWIN,
        );
        if !seldom || tally.lacks(of) {
            tally.input(of);
            twin_of(tally, &section, &at_start(twin.bytes()), rust);
        }
        tally.progress();
    }
}

/// A section of schema 1, valid or damaged.
fn any(r: &mut Random) -> Section {
    let section = match r.below(4) {
        0 => marked::operations(r),
        1 => marked::ruling(r),
        _ => shapes::small(r),
    };
    match r.below(8) {
        0 => section,
        _ => damaged(r, section),
    }
}

/// The port's answer to the twin, and the Rust's to the section, with its places behind spans moved and the other schema.
fn twin_of(
    tally: &mut Tally,
    s: &Section,
    case: &SectionCase,
    rust: Answer<(answers::section::Section, DecodedEvr0)>,
) {
    let moved = |offset: usize| match offset.checked_sub(8) {
        Some(place) => 8 + place_in_twin(s, place),
        None => offset,
    };
    let found = match &rust {
        Ok((_, decoded)) => marks(decoded),
        Err(_) => vec![],
    };
    let due = match rust {
        Ok((mut section, _)) => {
            section.head.schema = 2;
            section.cursor = case.file.len();
            Ok(section)
        }
        Err(refusal) => Err(Refusal {
            offset: moved(refusal.offset),
            ..refusal
        }),
    };
    let model = By::FOUR.wide().expected(&case.file, 0);
    let model = model.map(|(section, _)| section);
    tally.same(&due, &model, || format!("twin, the model, {}", what(case)));
    let rooms = rooms(case);
    let due = (expected(case, &due, rooms), lent(&found, rooms[2]));
    let port = call_marked(case, rooms, rooms[2]);
    tally.same(&due, &port, || format!("twin, {}", what(case)));

    let due = By::FOUR.rust(&s.bytes(), &mut 0);
    let due = due.map(|decoded| (2, decoded)).map_err(|e| Evr0Error {
        offset: moved(e.offset),
        ..e
    });
    let port = told(By::FOUR.crate_section(&case.file, &mut 0).map(section));
    tally.same(&rust_told(due), &port, || {
        format!("twin, the binding, {}", what(case))
    });
}

//! Which propositions are authorised by an operation of mark 1, which the Rust does not say: held to plain lines over the Rust's records
//! (tools/oracle/plain/marks.rs). Sections on which document 01's wording, without the mark, would say otherwise are made on purpose.

use crate::block_compare::OLD;
use crate::section_binding::{rust_told, told};
use crate::section_compare::{OLD_MARK, expected, rooms, what};
use crate::section_expected::raw_authorised;
use crate::tally::{Outcome, Tally};
use answers::Answer;
use answers::refusal::{Kind, Refusal};
use answers::section::Section;
use falgnust::calls::{self, SectionTables};
use falgnust::evr0;
use inputs::cases::SectionCase;
use inputs::marked;
use inputs::random::Random;
use inputs::section_conditions::counts;
use oracle::marks;
use oracle::records::DecodedEvr0;

/// One section for so many of the count.
const SHARE: usize = 10;

/// The operations on a proposition, by their marks; 61 and 62, after which the marks are zeros.
const REACHABLE: [Outcome; 10] = [
    (0, "no operation"),
    (0, "operations of mark 1 alone"),
    (0, "an operation of mark 2 beside one of mark 1"),
    (0, "an operation of mark 3 beside one of mark 1"),
    (0, "operations on a join of both, none of mark 1"),
    (0, "operations of mark 2, and mark 1 in another proof"),
    (0, "operations of mark 2 alone"),
    (0, "a longer table"),
    (61, "one short, marks alone"),
    (62, "no such proposition"),
];

pub fn run(r: &mut Random, count: usize) -> Tally {
    let mut tally = Tally::alone("authorised", &REACHABLE);
    for _ in 0..count / SHARE {
        let section = match r.one_in(2) {
            true => marked::operations(r),
            false => marked::ruling(r),
        };
        let cursor = r.below(20);
        let mut file: Vec<u8> = (0..cursor).map(|_| r.byte()).collect();
        file.extend(section.bytes());
        compare(&mut tally, &SectionCase { file, cursor });
    }
    tally
}

fn compare(tally: &mut Tally, case: &SectionCase) {
    let rust = oracle::section::section(&case.file, case.cursor);
    let (section, decoded) = rust.expect("an accepted section");
    let marks = marks::marks(&decoded);
    let asked = Asked {
        case,
        section,
        marks,
    };
    let propositions = decoded.propositions.len() as u32;
    for number in 0..=propositions {
        let there = number < propositions;
        let answer = there.then(|| marks::authorised(&decoded, &asked.marks, number));
        let value = answer.ok_or(Refusal {
            kind: Kind::Added,
            number: 62,
            offset: 0,
        });
        let condition = match there {
            true => (0, operations(&decoded, &asked.marks, number)),
            false => (62, "no such proposition"),
        };
        asked.same(tally, number, value, 0, condition);
        asked.same(tally, number, value, 1, (condition.0, "a longer table"));
        asked.short(tally, number);
        let port = told(evr0::authorised(&case.file, case.cursor, number));
        tally.same(&rust_told(Ok(answer)), &port, || {
            format!("the binding, proposition {number}, {}", what(case))
        });
    }
}

struct Asked<'a> {
    case: &'a SectionCase,
    section: Section,
    marks: Vec<u8>,
}

impl Asked<'_> {
    /// With so many entries more than there are proofs.
    fn same(&self, tally: &mut Tally, number: u32, value: Answer<bool>, more: usize, of: Outcome) {
        let room = self.marks.len() + more;
        self.call(tally, number, value, room, of);
    }

    /// One entry too few: 61, whatever the number.
    fn short(&self, tally: &mut Tally, number: u32) {
        let Some(room) = self.marks.len().checked_sub(1) else {
            return;
        };
        let (_, offset) = counts(&self.case.file, self.case.cursor);
        let refusal = Refusal {
            kind: Kind::Added,
            number: 61,
            offset,
        };
        let of = (61, "one short, marks alone");
        self.call(tally, number, Err(refusal), room, of);
    }

    /// The answer, and all four tables after it: what the decoder leaves, or zeros.
    fn call(&self, tally: &mut Tally, number: u32, value: Answer<bool>, room: usize, of: Outcome) {
        tally.input(of);
        let rooms = rooms(self.case);
        let mut tables = rooms.map(|room| vec![OLD; room]);
        let mut marks = vec![OLD_MARK; room];
        let [propositions, proofs, depths] = &mut tables;
        let lent = SectionTables {
            propositions,
            proofs,
            depths,
        };
        let SectionCase { file, cursor } = self.case;
        let answer = calls::authorised(file, *cursor, number, lent, &mut marks);
        let left = value.map(|_| self.section.clone());
        let (_, _, due) = expected(self.case, &left, rooms);
        let due_marks = marks::lent(if value.is_ok() { &self.marks } else { &[] }, room);
        tally.same(
            &(raw_authorised(value), due, due_marks),
            &(answer, tables, marks),
            || format!("proposition {number}, marks {room}, {}", what(self.case)),
        );
    }
}

/// The operations on a proposition, by their marks.
fn operations(section: &DecodedEvr0, marks: &[u8], proposition: u32) -> &'static str {
    let of_it = || {
        let all = section.proofs.iter().zip(marks);
        all.filter(|(p, _)| p.proposition_index == proposition)
    };
    let has = |operation: u8, wanted: u8| {
        of_it().any(|(p, mark)| p.authorized_operation == operation && *mark == wanted)
    };
    match (has(1, 1), has(1, 2), has(1, 3)) {
        (false, false, false) => "no operation",
        (true, false, false) => "operations of mark 1 alone",
        (true, true, _) => "an operation of mark 2 beside one of mark 1",
        (true, false, true) => "an operation of mark 3 beside one of mark 1",
        (false, _, true) => "operations on a join of both, none of mark 1",
        (false, true, false) if has(0, 1) => "operations of mark 2, and mark 1 in another proof",
        (false, true, false) => "operations of mark 2 alone",
    }
}

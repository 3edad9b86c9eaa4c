//! Depth by rounds, which the Rust does not have: held to plain lines (tools/oracle/plain/rounds.rs), to the Rust's depths of every section that
//! it accepts, and to its refusals but for 27 to 29; of schema 2, and by a table of other rules, to those of its model. Each section is lent a table
//! of rounds that is exact, longer, one short and empty, with the other tables long enough; what the call answers and leaves in all three is
//! compared. Every second call by the four is by those loaded as a table.

use crate::block_compare::OLD;
use crate::by::By;
use crate::section_binding::told;
use crate::section_compare::{rooms, what};
use crate::tally::{Outcome, Tally};
use answers::Answer;
use answers::refusal::{Kind, Refusal};
use answers::section::Section as Decoded;
use falgnust::calls::{self, SectionTables};
use falgnust::evr0::RuleTable;
use inputs::cases::{self, SectionCase};
use inputs::marked::{self, with_a_second_proposition};
use inputs::random::Random;
use inputs::section::Section;
use inputs::section_conditions::counts_passed;
use inputs::shapes;
use oracle::rounds::{self, Records};
use oracle::rules;

/// One section for so many of the count.
const SHARE: usize = 5;

/// How many more sections are looked at for conditions that were met too seldom, for each one of the count.
const TRIES: usize = 20;

const ZEROS: &str = "zeros";

/// What the rounds are, which refusal goes before which, and each refusal, after which the tables are zeros.
const REACHABLE: [Outcome; 39] = [
    (0, "no proof"),
    (0, "1 round"),
    (0, "2 to 9 rounds"),
    (0, "10 to 255 rounds"),
    (0, "256 rounds"),
    (0, "28 left aside"),
    (0, "29 left aside"),
    (0, "a longer table"),
    (61, "one short, rounds alone"),
    (61, "no entry, rounds alone"),
    (1, ZEROS),
    (2, ZEROS),
    (3, ZEROS),
    (4, ZEROS),
    (5, ZEROS),
    (6, ZEROS),
    (7, ZEROS),
    (8, ZEROS),
    (9, ZEROS),
    (10, ZEROS),
    (11, ZEROS),
    (12, ZEROS),
    (13, ZEROS),
    (16, ZEROS),
    (17, ZEROS),
    (18, ZEROS),
    (19, ZEROS),
    (20, ZEROS),
    (21, ZEROS),
    (22, ZEROS),
    (23, ZEROS),
    (24, ZEROS),
    (25, ZEROS),
    (25, "behind a 27 of the Rust"),
    (25, "behind a 28 or 29 of the Rust"),
    (26, ZEROS),
    (26, "behind a 27 of the Rust"),
    (26, "before a 25 of the same join"),
    (27, ZEROS),
];

pub fn run(r: &mut Random, count: usize) -> Tally {
    let mut tally = Tally::alone("rounds", &REACHABLE);
    large(&mut tally, r);
    for _ in 0..count / SHARE {
        let case = match r.below(400) {
            0 => cases::large_section(r),
            1..3 => at_start(forced(r)),
            _ => any(r),
        };
        compare(&mut tally, &case);
    }
    for turn in 0..TRIES * count {
        if tally.too_few().is_empty() {
            break;
        }
        let case = match turn % 8 {
            0 => at_start(forced(r)),
            _ => any(r),
        };
        let due = Due::of(&case, By::FOUR);
        if tally.lacks(due.outcome) {
            due.compare(&mut tally, &case);
        }
        tally.progress();
    }
    tally
}

/// A section of one ruling, or any in a file, valid or damaged.
fn any(r: &mut Random) -> SectionCase {
    match r.one_in(2) {
        true => at_start(marked::ruling(r)),
        false => cases::section(r),
    }
}

fn at_start(section: Section) -> SectionCase {
    SectionCase {
        file: section.bytes(),
        cursor: 0,
    }
}

/// Sections in which it counts which of two faults is named, and the last round.
fn forced(r: &mut Random) -> Section {
    match r.below(9) {
        0 => shapes::chain(r, 256),
        1 => shapes::chain(r, 257),
        // 25 or 26 of a proof after the 257th
        2 => {
            let mut s = shapes::chain(r, 257);
            s.op(0);
            s.parents[256] = 257 + r.below(3) as u32;
            s
        }
        3 => {
            let mut s = shapes::chain(r, 257);
            s.op(0);
            s.proofs[257].authority ^= 1;
            s
        }
        // 25 of a proof after one whose witness does not fit
        4 => {
            let mut s = misfit(r);
            let last = s.parents.len() - 1;
            s.parents[last] = s.proofs.len() as u32;
            s
        }
        // 26 of a join's first parent and 25 of its second
        5 => {
            let mut s = shapes::with_one_proposition(r);
            for authority in [7, 8] {
                s.witness(r, 0, authority, true);
            }
            s.join(0, 1);
            s.proofs[2].authority = 8;
            s.parents[1] = r.below(4) as u32 * 2;
            s
        }
        // 25 of a join of a proof with itself
        6 => {
            let mut s = marked::ruling(r);
            s.join(0, 0);
            s
        }
        // 28 and 29
        _ => misfit(r),
    }
}

/// A ruling one of whose witnesses has another proposition or the other polarity, and an OP at its end.
fn misfit(r: &mut Random) -> Section {
    let mut s = with_a_second_proposition(marked::ruling(r));
    s.op(0);
    let at = r.below(s.witnesses.len());
    match r.one_in(2) {
        true => s.witnesses[at].proposition = 1,
        false => s.witnesses[at].polarity ^= 1,
    }
    s
}

/// Joins upon joins up to the greatest depth, and the largest tables.
fn large(tally: &mut Tally, r: &mut Random) {
    for layers in [1, 2, 200, 255, 256] {
        let section = marked::joins_upon_joins(r, layers, [true, false]);
        compare(tally, &at_start(section));
    }
    for section in [
        shapes::layers(r, 250, 160),
        shapes::layers(r, 256, 256),
        shapes::layers(r, 257, 200),
        shapes::witnesses_and_ops(r, 40_000),
        shapes::ops_on_one(r, 65_536),
    ] {
        compare(tally, &at_start(section));
    }
}

pub fn compare(tally: &mut Tally, case: &SectionCase) {
    Due::of(case, By::FOUR).compare(tally, case);
}

/// By the rules of a table, where it loads.
pub fn compare_by_table(tally: &mut Tally, table: &[u8], case: &SectionCase) {
    if let (Ok(rules), Ok(loaded)) = (rules::load(table), RuleTable::load(table)) {
        Due::of(case, By::table(&loaded, &rules)).compare(tally, case);
    }
}

/// What is due of a case by some rules: the rounds with the starts and the cursor, or the refusal.
struct Due<'a> {
    by: By<'a>,
    rust: Answer<Decoded>,
    answer: Answer<(Records, Vec<u64>)>,
    outcome: Outcome,
}

impl<'a> Due<'a> {
    fn of(case: &SectionCase, by: By<'a>) -> Self {
        let by = by.of(&case.file, case.cursor);
        let rust = by.expected(&case.file, case.cursor);
        let rust = rust.map(|(section, _)| section);
        let before = rust.as_ref().err().map(|refusal| refusal.number);
        let (answer, outcome) = match &rust {
            Err(refusal) if !(25..=29).contains(&refusal.number) => {
                (Err(*refusal), (refusal.number, ZEROS))
            }
            _ => {
                let records = rounds::records(&case.file, case.cursor);
                match rounds::rounds(&records) {
                    Ok(numbers) => {
                        let outcome = marked_as(before, &numbers);
                        (Ok((records, numbers)), outcome)
                    }
                    Err((number, offset)) => {
                        let kind = match number {
                            27 => Kind::Limit,
                            _ => Kind::Invalid,
                        };
                        let refusal = Refusal {
                            kind,
                            number,
                            offset,
                        };
                        let two = number == 26 && rounds::is_before_25(&records, offset);
                        (Err(refusal), refused_as(before, number, two))
                    }
                }
            }
        };
        Due {
            by,
            rust,
            answer,
            outcome,
        }
    }

    fn compare(&self, tally: &mut Tally, case: &SectionCase) {
        if let (Ok(section), Ok((_, numbers))) = (&self.rust, &self.answer) {
            tally.same(&section.tables.depths, numbers, || {
                format!("the Rust's depths, {}", what(case))
            });
        }
        self.through_crate(tally, case);
        let Some((counts, offset)) = counts_passed(&case.file, case.cursor, &self.rust) else {
            // refused before any table is looked at, however short it is
            for room in [rooms(case)[2], 0] {
                self.same(tally, case, room, self.outcome, None);
            }
            return;
        };
        let proofs = counts[1] as usize;
        let longer = match self.outcome {
            (0, _) => (0, "a longer table"),
            refused => refused,
        };
        let mut lent = vec![
            (proofs, self.outcome),
            (proofs + 1 + case.file.len() % 3, longer),
        ];
        if proofs > 0 {
            lent.push((proofs - 1, (61, "one short, rounds alone")));
            lent.push((0, (61, "no entry, rounds alone")));
        }
        for (room, outcome) in lent {
            let short = rounds::is_short(room, proofs).then_some(offset);
            self.same(tally, case, room, outcome, short);
        }
    }

    /// The answer, the cursor, and all three tables, of which that of rounds has this room; 61 at a place where it is short.
    fn same(
        &self,
        tally: &mut Tally,
        case: &SectionCase,
        room: usize,
        outcome: Outcome,
        short: Option<usize>,
    ) {
        tally.input(outcome);
        let [propositions, proofs, _] = rooms(case);
        let rooms = [propositions, proofs, room];
        let zeros = || rooms.map(|room| rounds::lent(&[], room));
        let due = match (&self.answer, short) {
            (_, Some(offset)) => {
                let refusal = Refusal {
                    kind: Kind::Added,
                    number: 61,
                    offset,
                };
                (Err(refusal), case.cursor, zeros())
            }
            (Err(refusal), None) => (Err(*refusal), case.cursor, zeros()),
            (Ok((records, numbers)), None) => {
                let tables = [&records.propositions, &records.proofs, numbers];
                let tables = std::array::from_fn(|i| rounds::lent(tables[i], rooms[i]));
                (Ok(numbers.len()), records.end, tables)
            }
        };
        let loaded = tally.inputs().is_multiple_of(2);
        tally.same(&due, &call(case, self.by, rooms, loaded), || {
            let rules = self.by.told();
            format!("{rules}room {rooms:?}, loaded {loaded}, {}", what(case))
        });
    }

    /// What the crate answers: the rounds, or the error.
    fn through_crate(&self, tally: &mut Tally, case: &SectionCase) {
        let due = match &self.answer {
            Ok((_, numbers)) => Ok(numbers.clone()),
            Err(refusal) => Err((refusal.offset, Some(refusal.number))),
        };
        let found = told(self.by.crate_depth_by_rounds(&case.file, case.cursor));
        let found = found.map_err(|(error, number)| (error.offset, number));
        tally.same(&due, &found, || {
            format!("the binding, {}{}", self.by.told(), what(case))
        });
    }
}

type Called = (Answer<usize>, usize, [Vec<u64>; 3]);

/// By these rules; where they are the four, those loaded as a table or not.
fn call(case: &SectionCase, by: By, rooms: [usize; 3], loaded: bool) -> Called {
    let mut tables = rooms.map(|room| vec![OLD; room]);
    let [propositions, proofs, depths] = &mut tables;
    let lent = SectionTables {
        propositions,
        proofs,
        depths,
    };
    let found = match loaded && by.is_four() {
        true => calls::depth_by_rounds_by_rules(RuleTable::FOUR, &case.file, case.cursor, lent),
        false => by.depth_by_rounds(&case.file, case.cursor, lent),
    };
    let answer = match found.accepted {
        true => Ok(found.proofs),
        false => Err(port::refusal::answer(found.refusal)),
    };
    (answer, found.cursor, tables)
}

/// What a section is counted as whose proofs are all marked; `before` is the number that the Rust refuses it with.
fn marked_as(before: Option<u8>, numbers: &[u64]) -> Outcome {
    let condition = match (before, numbers.iter().max()) {
        (Some(28), _) => "28 left aside",
        (Some(29), _) => "29 left aside",
        (_, None) => "no proof",
        (_, Some(1)) => "1 round",
        (_, Some(2..=9)) => "2 to 9 rounds",
        (_, Some(256)) => "256 rounds",
        _ => "10 to 255 rounds",
    };
    (0, condition)
}

fn refused_as(before: Option<u8>, number: u8, two: bool) -> Outcome {
    let condition = match (before, number) {
        (Some(27), 25 | 26) => "behind a 27 of the Rust",
        (Some(28 | 29), 25) => "behind a 28 or 29 of the Rust",
        _ if two => "before a 25 of the same join",
        _ => ZEROS,
    };
    (number, condition)
}

//! Two sections compared, and of every proposition whether it is authorised, which the Rust does not have: held to plain lines over the Rust's records
//! (tools/oracle/plain/compare.rs). Each call is lent tables full of other bytes, and all eleven are compared whole after it.

use crate::authorised_table;
use crate::by::By;
use crate::compare_call::{
    Known, Pair, RULES, call, call_by, compared, in_c, known, refused, rooms,
};
use crate::section_binding::proposition;
use crate::tally::{Outcome, Tally, hex};
use answers::Answer;
use answers::refusal::{Kind, Refusal};
use falgnust::calls;
use falgnust::evr0::{self, RuleTable};
use inputs::cases::{SectionCase, in_file};
use inputs::random::Random;
use inputs::ruled::{self, Table};
use inputs::section::Section;
use inputs::section_conditions::counts_passed;
use inputs::{compared as pairs, shapes};
use oracle::compare::{List, Whose};
use oracle::{compare as plain, rules};
use std::sync::LazyLock;

mod conditions;

use conditions::{APART, BEFORE, EMPTY, FOUR, LONGER, OTHER, REACHABLE, SHORT, key_of, outcome};

/// One pair for so many of the count.
const SHARE: usize = 10;

/// How many more pairs are looked at for conditions that were met too seldom, for each one of the count.
const TRIES: usize = 20;

pub fn run(r: &mut Random, count: usize) -> Tally {
    let mut tally = Tally::alone("compare", &REACHABLE);
    large(&mut tally, r);
    for _ in 0..count / SHARE {
        let pair = any(r);
        compare(&mut tally, &pair, By::FOUR);
        in_order(&mut tally, r);
        by_rules(&mut tally, r);
    }
    for _ in 0..TRIES * count {
        if tally.too_few().is_empty() {
            break;
        }
        let pair = any(r);
        let sections = [pair.first(), pair.second()].map(|at| known(By::FOUR, at));
        let list = listed(&pair, &sections, usize::MAX);
        if tally.lacks(outcome(&pair, &sections, &list)) {
            compare(&mut tally, &pair, By::FOUR);
        }
        if APART.iter().any(|outcome| tally.lacks(*outcome)) {
            in_order(&mut tally, r);
            by_rules(&mut tally, r);
        }
        tally.progress();
    }
    tally
}

/// Sections of one pool, whole or one of them damaged, often with another source set.
fn any(r: &mut Random) -> Pair {
    let [first, mut second] = pairs::pair(r);
    if r.one_in(6) {
        pairs::other_source_set(r, &mut second);
    }
    match r.below(8) {
        0 => {
            let between: Vec<u8> = (0..r.below(20)).map(|_| r.byte()).collect();
            Pair::in_one_file(&first.bytes(), &between, &second.bytes())
        }
        1 => Pair::new(in_file(r, first), whole(r, second)),
        2 => Pair::new(whole(r, first), in_file(r, second)),
        3 => Pair::new(in_file(r, first), in_file(r, second)),
        _ => Pair::new(whole(r, first), whole(r, second)),
    }
}

/// Somewhere in a file.
fn whole(r: &mut Random, section: Section) -> SectionCase {
    let cursor = r.pick(&[0, 0, 1, 7, 19]);
    let mut file: Vec<u8> = (0..cursor).map(|_| r.byte()).collect();
    file.extend(section.bytes());
    file.extend((0..r.pick(&[0, 0, 3, 40])).map(|_| r.byte()));
    SectionCase { file, cursor }
}

/// Compares a pair with a table of verdicts that is exact, longer, one short and empty, and with each other table one short.
pub fn compare(tally: &mut Tally, pair: &Pair, by: By) {
    let sections = [pair.first(), pair.second()].map(|at| known(by, at));
    let list = listed(pair, &sections, usize::MAX);
    let of = outcome(pair, &sections, &list);
    compare_as(tally, pair, by, &sections, of);
    if let Ok(list) = &list {
        let call = Call::new(tally, pair, by, &sections);
        call.same(list.len() + 1 + pair.first().0.len() % 3, (0, LONGER));
        if !list.is_empty() {
            Call::new(tally, pair, by, &sections).same(list.len() - 1, (61, SHORT));
            Call::new(tally, pair, by, &sections).same(0, (61, EMPTY));
        }
    } else if of.0 == 74 {
        let call = Call::new(tally, pair, by, &sections);
        call.same(0, (74, "beside a short table"));
    }
    short_tables(tally, pair, by, &sections);
    authorised_table::compare(tally, pair, by, &sections[1]);
}

/// With a table of verdicts that is just long enough, and through the crate.
fn compare_as(tally: &mut Tally, pair: &Pair, by: By, sections: &[Answer<Known>; 2], of: Outcome) {
    let list = listed(pair, sections, usize::MAX);
    let room = list.as_ref().map_or(3, Vec::len);
    through_crate(tally, pair, by, &list);
    Call::new(tally, pair, by, sections).same(room, of);
}

pub type Listed = Result<List, (Whose, Refusal)>;

/// What the plain lines say, with room for so many entries.
fn listed(pair: &Pair, sections: &[Answer<Known>; 2], room: usize) -> Listed {
    let [first, second] = sections.each_ref().map(|known| {
        let known = known.as_ref().map_err(|refusal| *refusal);
        known.map(|known| known.decoded.clone())
    });
    plain::compare(&first, &second, pair.second().1, room)
}

struct Call<'a> {
    tally: &'a mut Tally,
    pair: &'a Pair,
    by: By<'a>,
    sections: &'a [Answer<Known>; 2],
}

impl<'a> Call<'a> {
    fn new(
        tally: &'a mut Tally,
        pair: &'a Pair,
        by: By<'a>,
        sections: &'a [Answer<Known>; 2],
    ) -> Self {
        Call {
            tally,
            pair,
            by,
            sections,
        }
    }

    /// With room for so many entries.
    fn same(self, room: usize, of: Outcome) {
        let [first, second] = self.sections;
        let rooms = [
            rooms(first, self.pair.first()),
            rooms(second, self.pair.second()),
        ];
        let due = match listed(self.pair, self.sections, room) {
            Err((whose, refusal)) => refused(in_c(whose), refusal, rooms, room),
            Ok(list) => {
                let [Ok(first), Ok(second)] = self.sections else {
                    unreachable!("both were decoded");
                };
                compared([first, second], &list, rooms, room)
            }
        };
        self.tally.input(of);
        let port = call(self.pair, self.by, rooms, room);
        self.tally.same(&due, &port, || {
            let told = self.by.told();
            format!("room {rooms:?} and {room}, {told}{}", self.pair.told())
        });
    }
}

/// 61, which comes at the counts of a section: one of its tables an entry too short, the others just long enough, and none for the list.
fn short_tables(tally: &mut Tally, pair: &Pair, by: By, sections: &[Answer<Known>; 2]) {
    const NAMES: [[&str; 5]; 2] = [
        [
            "the first's propositions",
            "the first's proofs",
            "the first's depths",
            "the first's marks",
            "the first's authorised",
        ],
        [
            "the second's propositions",
            "the second's proofs",
            "the second's depths",
            "the second's marks",
            "the second's authorised",
        ],
    ];
    let at = [pair.first(), pair.second()];
    for of in 0..2 {
        if of == 1 && sections[0].is_err() {
            continue;
        }
        let (file, cursor) = at[of];
        let answer = sections[of]
            .as_ref()
            .map(|_| ())
            .map_err(|refusal| *refusal);
        let Some((counts, offset)) = counts_passed(file, cursor, &answer) else {
            continue;
        };
        let [propositions, proofs] = [counts[0], counts[1]].map(|count| count as usize);
        let needed = [propositions, proofs, proofs, proofs, propositions];
        for table in 0..5 {
            if needed[table] == 0 {
                continue;
            }
            let mut lent = [rooms(&sections[0], at[0]), rooms(&sections[1], at[1])];
            lent[of] = needed;
            lent[of][table] -= 1;
            let short = Refusal {
                kind: Kind::Added,
                number: 61,
                offset,
            };
            let whose = in_c([Whose::First, Whose::Second][of]);
            tally.input((61, NAMES[of][table]));
            let due = refused(whose, short, lent, 0);
            tally.same(&due, &call(pair, by, lent, 0), || {
                format!("room {lent:?}, {}{}", by.told(), pair.told())
            });
        }
    }
}

/// What the crate answers: the list by propositions and verdicts, and the totals; or whose refusal, its number and its offset.
fn through_crate(tally: &mut Tally, pair: &Pair, by: By, list: &Listed) {
    let due = match list {
        Ok(list) => Ok((list.clone(), plain::totals(list))),
        Err((whose, refusal)) => Err((*whose, Some(refusal.number), refusal.offset)),
    };
    let port = by.crate_compare(pair.first(), pair.second());
    let port = match port {
        Ok(found) => {
            let entries = found.entries.into_iter().map(|entry| {
                let verdict = match entry.verdict {
                    evr0::Verdict::Agreed => 1,
                    evr0::Verdict::Contradicted => 2,
                    evr0::Verdict::FirstOnly => 3,
                    evr0::Verdict::SecondOnly => 4,
                };
                (key_of(&proposition(entry.proposition)), verdict)
            });
            let of_one = [found.first_only, found.second_only];
            let totals = [found.agreed, found.contradicted, of_one[0], of_one[1]];
            Ok((entries.collect(), totals))
        }
        Err(error) => {
            let whose = match &error {
                evr0::CompareError::First(_) => Whose::First,
                evr0::CompareError::Second(_) => Whose::Second,
                evr0::CompareError::SourceSets { .. } => Whose::Pair,
            };
            Err((whose, error.number(), error.offset()))
        }
    };
    tally.same(&due, &port, || {
        format!("the binding, {}{}", by.told(), pair.told())
    });
}

// ---- Which refusal goes first

/// Two at once: of the first and of the second; of the second, and 74 or a short table.
fn in_order(tally: &mut Tally, r: &mut Random) {
    let [mut first, mut second] = pairs::pair(r);
    second.schema = 9;
    let of = match r.below(3) {
        0 if first.propositions.len() > 1 => {
            first.propositions.reverse();
            (16, "the first's, and the second is refused too")
        }
        1 => {
            pairs::other_source_set(r, &mut second);
            (10, "the second's, and the source sets differ")
        }
        _ => (10, "the second's, and the table is short"),
    };
    let pair = Pair::new(whole(r, first), whole(r, second));
    let sections = [pair.first(), pair.second()].map(|at| known(By::FOUR, at));
    Call::new(tally, &pair, By::FOUR, &sections).same(0, of);
}

// ---- By rules

static ORDERS: LazyLock<Vec<RuleTable>> = LazyLock::new(|| {
    let load = |table: &ruled::Table| RuleTable::load(&table.bytes()).expect("the four");
    ruled::orders().iter().map(load).collect()
});

/// By the four loaded, by another table, and by one that is refused.
fn by_rules(tally: &mut Tally, r: &mut Random) {
    let [first, second] = pairs::pair(r);
    match r.below(3) {
        0 => {
            let pair = Pair::new(whole(r, first), whole(r, second));
            let by = By::four_loaded(&ORDERS[r.below(ORDERS.len())]);
            let sections = [pair.first(), pair.second()].map(|at| known(by, at));
            compare_as(tally, &pair, by, &sections, (0, FOUR));
            authorised_table::compare(tally, &pair, by, &sections[1]);
        }
        1 => {
            let table = ruled::table(r);
            let [first, second] = [first, second].map(|section| ruled::by(r, &table, section));
            let pair = Pair::new(whole(r, first), whole(r, second));
            by_table(tally, &table, &pair);
        }
        _ => {
            let table = ruled::table(r);
            let table = ruled::damaged(r, table).bytes();
            before_both(tally, &table, &any(r));
        }
    }
}

fn by_table(tally: &mut Tally, table: &Table, pair: &Pair) {
    let bytes = table.bytes();
    let rules = rules::load(&bytes).expect("a table that loads");
    let loaded = match RuleTable::load(&bytes) {
        Ok(loaded) => loaded,
        Err(error) => return tally.same(&Ok(rules.len()), &Err(error), || hex(&bytes)),
    };
    let by = By::table(&loaded, &rules);
    let sections = [pair.first(), pair.second()].map(|at| known(by, at));
    let of = match listed(pair, &sections, usize::MAX) {
        Ok(_) => (0, OTHER),
        Err((_, refusal)) => (refusal.number, OTHER),
    };
    compare_as(tally, pair, by, &sections, of);
    authorised_table::compare(tally, pair, by, &sections[1]);
}

/// A table that is refused, whatever the sections are: all eleven tables are zeros.
fn before_both(tally: &mut Tally, table: &[u8], pair: &Pair) {
    let Err((number, _)) = rules::load(table) else {
        return;
    };
    tally.input((number, BEFORE));
    let refusal = Refusal {
        kind: Kind::Added,
        number,
        offset: 0,
    };
    let (lent, room) = ([[3, 4, 5, 2, 3], [5, 1, 0, 3, 2]], 4);
    let due = refused(RULES, refusal, lent, room);
    let port = call_by(pair, lent, room, |first, second, verdicts| {
        calls::compare_sections_by_rules(table, first, second, verdicts)
    });
    tally.same(&due, &port, || format!("{}, {}", hex(table), pair.told()));
}

// ---- Large sections

/// The most propositions on either side, in the same kinds and apart; operations over many propositions; and 40,000 proofs.
fn large(tally: &mut Tally, r: &mut Random) {
    let many = shapes::many_propositions(r, 65_536, 49);
    let mut apart = shapes::many_propositions(r, 65_536, 49);
    for p in &mut apart.propositions {
        p.obligation = 1;
    }
    let mut half = shapes::many_propositions(r, 65_536, 49);
    for p in half.propositions.iter_mut().step_by(2) {
        p.obligation = 7;
    }
    let ops = pairs::ops_over_propositions(r, 35_600, 65_536, 11_000);
    let mut fewer = pairs::ops_over_propositions(r, 30_000, 65_536, 9_000);
    fewer.propositions.truncate(65_000);
    let layers = shapes::layers(r, 250, 160);
    let one = shapes::ops_on_one(r, 40_000);
    for (first, second) in [
        (&many, &many),
        (&many, &apart),
        (&apart, &many),
        (&many, &half),
        (&half, &many),
        (&ops, &fewer),
        (&fewer, &ops),
        (&layers, &one),
        (&one, &layers),
    ] {
        let mut second = second.clone();
        second.source_set = first.source_set;
        let at_start = |section: &Section| SectionCase {
            file: section.bytes(),
            cursor: 0,
        };
        let pair = Pair::new(at_start(first), at_start(&second));
        compare(tally, &pair, By::FOUR);
    }
}

//! Each call with a table that is refused: the loader's refusal, before anything is said of the section, and zeros in every lent table.

use crate::block_compare::OLD;
use crate::section_compare::{OLD_MARK, rooms, what};
use crate::tally::{Tally, hex};
use falgnust::calls::{self, SectionTables};
use falgnust::raw;
use inputs::cases::SectionCase;
use std::fmt::Debug;

/// A section and the table that is given with it.
struct Given<'a> {
    table: &'a [u8],
    case: &'a SectionCase,
}

pub fn compare(tally: &mut Tally, table: &[u8], case: &SectionCase, refusal: raw::Refusal) {
    let given = Given { table, case };
    let SectionCase { ref file, cursor } = *case;
    let section = raw::Section {
        refusal,
        cursor,
        ..Default::default()
    };
    let number = (file.len() % 3) as u32;
    given.same(tally, "unmarked", section, |lent, _| {
        calls::decode_evr0_unmarked_by_rules(table, file, cursor, lent)
    });
    given.same_marked(tally, "with marks", section, |lent, marks| {
        calls::decode_evr0_section_by_rules(table, file, cursor, lent, marks)
    });
    let authorised = raw::Authorised {
        refusal,
        ..Default::default()
    };
    given.same_marked(tally, "authorised", authorised, |lent, marks| {
        calls::authorised_by_rules(table, file, cursor, number, lent, marks)
    });
    let way = raw::WayDown {
        refusal,
        ..Default::default()
    };
    given.same(tally, "way down", way, |lent, _| {
        calls::way_down_by_rules(table, file, cursor, number, 255, lent)
    });
    let rounds = raw::Rounds {
        refusal,
        cursor,
        ..Default::default()
    };
    given.same(tally, "rounds", rounds, |lent, _| {
        calls::depth_by_rounds_by_rules(table, file, cursor, lent)
    });
    let proposition = raw::Proposition {
        refusal,
        ..Default::default()
    };
    given.same(tally, "proposition", proposition, |lent, _| {
        calls::proposition_number_by_rules(table, file, cursor, number, lent)
    });
    let proof = raw::Proof {
        refusal,
        ..Default::default()
    };
    given.same(tally, "proof", proof, |lent, _| {
        calls::proof_number_by_rules(table, file, cursor, number, lent)
    });
    let witness = raw::Witness {
        refusal,
        ..Default::default()
    };
    given.same(tally, "witness", witness, |lent, _| {
        calls::witness_number_by_rules(table, file, cursor, number, lent)
    });
    let parent = raw::Parent {
        refusal,
        ..Default::default()
    };
    given.same(tally, "parent", parent, |lent, _| {
        calls::parent_number_by_rules(table, file, cursor, number, lent)
    });
}

impl Given<'_> {
    /// The answer, and the three tables after it.
    fn same<T: PartialEq + Debug>(
        &self,
        tally: &mut Tally,
        name: &str,
        due: T,
        call: impl FnOnce(SectionTables, &mut [u8]) -> T,
    ) {
        self.after(tally, name, due, OLD_MARK, call);
    }

    /// And the marks, too.
    fn same_marked<T: PartialEq + Debug>(
        &self,
        tally: &mut Tally,
        name: &str,
        due: T,
        call: impl FnOnce(SectionTables, &mut [u8]) -> T,
    ) {
        self.after(tally, name, due, 0, call);
    }

    fn after<T: PartialEq + Debug>(
        &self,
        tally: &mut Tally,
        name: &str,
        due: T,
        due_mark: u8,
        call: impl FnOnce(SectionTables, &mut [u8]) -> T,
    ) {
        let rooms = rooms(self.case).map(|room| room.min(50));
        let mut tables = rooms.map(|room| vec![OLD; room]);
        let mut marks = vec![OLD_MARK; rooms[2]];
        let [propositions, proofs, depths] = &mut tables;
        let lent = SectionTables {
            propositions,
            proofs,
            depths,
        };
        let answer = call(lent, &mut marks);
        let zeros = rooms.map(|room| vec![0; room]);
        let due_marks = vec![due_mark; rooms[2]];
        tally.same(&(due, zeros, due_marks), &(answer, tables, marks), || {
            format!("{name}, rules {}, {}", hex(self.table), what(self.case))
        });
    }
}

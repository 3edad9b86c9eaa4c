//! Whether each proposition of a section is authorised, in one table, held to plain lines over the Rust's records and to what the question about each
//! answers. The table is exact, one short and longer, and all five that are lent are compared whole.

use crate::by::By;
use crate::compare_call::{Known, Pair, Rooms, Tables, rooms, zeros};
use crate::section_binding::{rust_told, told};
use crate::tally::Tally;
use answers::Answer;
use answers::refusal::{Kind, Refusal};
use inputs::section_conditions::counts_passed;
use oracle::marks;

/// A table that is as long as there are propositions.
pub const AUTHORISED: &str = "authorised of every proposition";

/// Whether each proposition of the second section is authorised: in a table that is exact, one short and longer, through the crate, and as the
/// question about each answers.
pub fn compare(tally: &mut Tally, pair: &Pair, by: By, section: &Answer<Known>) {
    let at = pair.second();
    let (file, cursor) = at;
    let due = rust_told(by.of(file, cursor).rust(file, &mut cursor.clone()));
    let due = due.map(|_| section.as_ref().expect("a section").authorised.clone());
    let port = told(by.crate_authorised_table(file, cursor));
    tally.same(&due, &port, || {
        format!("the binding, authorised, {}{}", by.told(), pair.told())
    });
    let mut rooms = rooms(section, at);
    let mut same = |rooms: Rooms, due: &Answer<Tables>, of| {
        tally.input(of);
        let mut tables = Tables::old(rooms);
        let answer = by.authorised_table(tables.lent(at));
        let (head, after) = port::section::answer(answer);
        let due_head = match (section, due) {
            (Ok(known), Ok(_)) => (Ok(known.section.head), known.section.cursor),
            (_, Err(refusal)) => (Err(*refusal), cursor),
            (Err(refusal), _) => (Err(*refusal), cursor),
        };
        let zeros = zeros(rooms);
        let due = (due_head, due.as_ref().unwrap_or(&zeros));
        tally.same(&due, &((head, after), &tables), || {
            format!("authorised, {rooms:?}, {}{}", by.told(), pair.told())
        });
    };
    let Ok(known) = section else {
        let Err(refusal) = section else { return };
        return same(rooms, &Err(*refusal), (refusal.number, "authorised, zeros"));
    };
    same(rooms, &Ok(known.left(rooms)), (0, AUTHORISED));
    let exact = rooms[4];
    rooms[4] = exact + 2;
    let of = (0, "authorised longer than propositions");
    same(rooms, &Ok(known.left(rooms)), of);
    if let Some(less) = exact.checked_sub(1) {
        rooms[4] = less;
        let answer: Answer<()> = Ok(());
        let (_, offset) = counts_passed(file, cursor, &answer).expect("an accepted section");
        let short = Refusal {
            kind: Kind::Added,
            number: 61,
            offset,
        };
        same(rooms, &Err(short), (61, "authorised alone one short"));
    }
    if exact <= FEW {
        for (number, due) in (0..).zip(&known.authorised) {
            let one = by.crate_authorised(file, cursor, number);
            tally.same(&Ok(Some(*due)), &one, || {
                format!("authorised {number}, {}{}", by.told(), pair.told())
            });
            let marks = marks::marks(&known.decoded);
            let one = marks::authorised(&known.decoded, &marks, number);
            tally.same(&one, due, || format!("plain lines, {}", pair.told()));
        }
    }
}

/// Sections of at most so many propositions are asked about each.
const FEW: usize = 12;

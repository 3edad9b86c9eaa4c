//! Sections and column files that are made one by one, and such as random ones seldom are.

use super::due::{call, due, expected, refused};
use super::same::{fitted, same_taken, take, take_once, write};
use super::{TAKEN, number, schema};
use crate::by::By;
use crate::tally::{Outcome, Tally, hex};
use falgnust::evr0::RuleTable;
use inputs::cases::SectionCase;
use inputs::columns::{Columns, Piece, groups};
use inputs::random::Random;
use inputs::ruled;
use inputs::section_faults::scrambled;
use inputs::shapes;
use inputs::wide::wide;
use oracle::{columns, rules};

fn at_start(file: Vec<u8>) -> SectionCase {
    SectionCase { file, cursor: 0 }
}

/// Every cut and every byte change of small files, every payload length below 512, every schema.
pub fn small_files(tally: &mut Tally, r: &mut Random) {
    for shape in [
        shapes::with_one_proposition,
        shapes::one_proof,
        shapes::two_proofs,
        shapes::joined,
    ] {
        for schema in [1, 2, 3] {
            let mut section = shape(r);
            match schema {
                2 => section = wide(r, section),
                _ => section.schema = schema,
            }
            let file = Columns::of(&section).bytes();
            write(tally, By::FOUR, &at_start(section.bytes()));
            take(tally, By::FOUR, &file);
            for end in 0..file.len() {
                take(tally, By::FOUR, &file[..end]);
            }
            for more in 0..=255 {
                take(tally, By::FOUR, &[&file[..], &[more]].concat());
            }
            byte_changes(tally, &file);
        }
    }
    let section = shapes::two_proofs(r);
    let mut file = Columns::of(&section).bytes();
    for (at, most) in [(4, 512), (8, u16::MAX)] {
        let before = [file[at], file[at + 1]];
        for value in 0..=most {
            file[at..at + 2].copy_from_slice(&value.to_le_bytes());
            take(tally, By::FOUR, &file);
        }
        file[at..at + 2].copy_from_slice(&before);
    }
}

/// Every byte with every other value.
fn byte_changes(tally: &mut Tally, file: &[u8]) {
    let mut changed = file.to_vec();
    for at in 0..file.len() {
        for change in 1..=255 {
            changed[at] = file[at] ^ change;
            take_once(tally, &changed, 1024);
        }
        changed[at] = file[at];
    }
}

/// The largest tables, numbers of the most groups, and payloads at their limit.
pub fn large(tally: &mut Tally, r: &mut Random) {
    let mut all = vec![
        shapes::chain(r, 256),
        shapes::chain(r, 257),
        shapes::layers(r, 250, 160),
        shapes::witnesses_and_ops(r, 40_000),
        shapes::ops_on_one(r, 65_536),
        shapes::ops_on_one(r, 65_537),
        shapes::many_propositions(r, 65_536, 40),
        shapes::many_propositions(r, 65_537, 40),
    ];
    let mut longest = shapes::many_propositions(r, 65_536, 49);
    let short = 4_194_304 - (longest.bytes().len() - 8);
    for more in [short, short + 1] {
        longest.policy.bytes = vec![b'p'; 1 + more];
        all.push(longest.clone());
    }
    let mut widest = shapes::witnesses_and_ops(r, 2000);
    for proof in &mut widest.proofs {
        proof.authority = u32::MAX;
    }
    all.push(widest);
    all.push(wide(
        r,
        shapes::witnesses_and_ops(&mut Random::new(1), 20_000),
    ));
    all.push(wide(r, shapes::layers(&mut Random::new(2), 250, 160)));
    for section in all {
        let case = at_start(section.bytes());
        write(tally, By::FOUR, &case);
        take(tally, By::FOUR, &Columns::of(&section).bytes());
    }
}

/// Sections and column files by 1 to 32 other rules, and tables that are refused.
pub fn by_rules(tally: &mut Tally, r: &mut Random) {
    let form = schema(r);
    let (table, case) = ruled::section_in(r, form);
    let rules = rules::load(&table.bytes()).expect("a table that loads");
    let loaded = RuleTable::load(&table.bytes()).expect("a table that loads");
    let by = By::table(&loaded, &rules);
    write(tally, by, &case);
    let section = shapes::small(r);
    let section = ruled::by(r, &table, section);
    let section = form(r, section);
    let mut file = Columns::of(&section).bytes();
    if r.one_in(4) {
        file = scrambled(r, file);
    }
    take(tally, by, &file);
    let table = ruled::damaged(r, table).bytes();
    if let Err((number, _)) = rules::load(&table) {
        refused_table(tally, &table, &case, &file, number);
    }
}

/// A table that is refused, before the section or the columns are looked at.
fn refused_table(tally: &mut Tally, table: &[u8], case: &SectionCase, file: &[u8], number: u8) {
    let (rooms, room) = ([2, 3, 4], file.len() % 40);
    let due = due(Err(refused(number, 0)), rooms, room);
    tally.input((number, "writing"));
    let port = call(rooms, room, |lent, output| {
        falgnust::calls::write_columns_by_rules(table, &case.file, case.cursor, lent, output)
    });
    tally.same(&due, &port, || format!("writing, rules {}", hex(table)));
    tally.input((number, "taking back"));
    let port = call(rooms, room, |lent, output| {
        falgnust::calls::take_columns_by_rules(table, file, lent, output)
    });
    tally.same(&due, &port, || format!("taking back, rules {}", hex(table)));
}

/// Payload lengths that are not the section's, a count of 2^32 - 1 with no columns, schema 3: each alone in a small file that is right else.
pub fn hard_to_meet(tally: &mut Tally, r: &mut Random) {
    let mut section = shapes::small(r);
    section.schema = 3;
    let of = (10, "schema 3");
    alone(tally, &Columns::of(&section), of);
    section.schema = 1;
    let right = Columns::of(&section);
    let length = section.bytes().len() as u32 - 8;
    let shorter = r.below(length as usize) as u32;
    for other in [length + 1 + shorter, shorter.max(1)] {
        section.length = Some(other);
        let columns = Columns::of(&section);
        let section = columns::take(&columns.bytes()).expect("columns");
        let of = match number(&expected(By::FOUR, &section, 0)) {
            4 => (4, "a longer payload length"),
            number => (number, "a shorter payload length"),
        };
        alone(tally, &columns, of);
    }
    let table = r.below(4);
    let mut cut = right;
    cut.pieces.truncate(9);
    for (place, piece) in cut.pieces[5..].iter_mut().enumerate() {
        let count = if place == table { u32::MAX } else { 0 };
        *piece = Piece::Bytes(groups(count.into(), 0));
    }
    alone(tally, &cut, (76, "a count of 2^32 - 1 without columns"));
}

/// A table of one record more than it may have, lent outputs and tables of many lengths: such a file is long.
pub fn too_many(tally: &mut Tally, r: &mut Random) {
    let mut section = shapes::with_one_proposition(r);
    match r.below(3) {
        0 => section.propositions = vec![section.propositions[0].clone(); 65_537],
        1 => section = shapes::ops_on_one(r, 65_537),
        _ => section.parents = vec![0; 262_145],
    }
    let file = Columns::of(&section).bytes();
    let taken = columns::take(&file);
    let length = taken.as_ref().map_or(0, Vec::len);
    for more in 0..40 {
        let (rooms, room) = ([more, 2, 3], length + more);
        same_taken(tally, By::FOUR, &file, &taken, rooms, room, (12, TAKEN));
    }
}

fn alone(tally: &mut Tally, columns: &Columns, of: Outcome) {
    let file = columns.bytes();
    let taken = columns::take(&file);
    let room = taken.as_ref().map_or(100, Vec::len);
    same_taken(tally, By::FOUR, &file, &taken, fitted(room), room, of);
}

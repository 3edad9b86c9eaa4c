//! What is asked of a section by number: records of the Rust's vectors, the way down and, with marks, authorised by plain lines over them, 62 past
//! their end, and the section's own refusal where it has one. Each is asked of a C function, whose lent tables are looked at, and of the
//! crate that callers link.

use crate::block_compare::{OLD, lent};
use crate::by::By;
use crate::section_binding::{self as binding, Told, rust_told, told};
use crate::section_compare::OLD_MARK;
use crate::section_expected::{self as expected, Down, Record};
use crate::tally::{Tally, hex};
use answers::Answer;
use answers::refusal::{Kind, Refusal};
use answers::section::Section;
use falgnust::calls::{self, SectionTables};
use falgnust::{evr0, raw};
use inputs::cases::SectionCase;
use oracle::records::{DecodedEvr0, Witness};
use std::fmt::Debug;

const NOT_THERE: Refusal = Refusal {
    kind: Kind::Added,
    number: 62,
    offset: 0,
};

/// A section, the Rust's answer, and by which rules.
struct Asked<'a> {
    file: &'a [u8],
    cursor: usize,
    rust: &'a Answer<(Section, DecodedEvr0)>,
    by: By<'a>,
}

/// By these rules on both sides.
pub fn compare_by(
    tally: &mut Tally,
    case: &SectionCase,
    rust: &Answer<(Section, DecodedEvr0)>,
    by: By,
) {
    let SectionCase { ref file, cursor } = *case;
    let asked = Asked {
        file,
        cursor,
        rust,
        by,
    };
    let numbers = match rust {
        Ok((section, _)) => section.head.counts.map(numbers),
        Err(_) => std::array::from_fn(|_| vec![0]),
    };
    let marks = match rust {
        Ok((_, decoded)) => oracle::marks::marks(decoded),
        Err(_) => vec![],
    };
    for number in &numbers[0] {
        asked.proposition(tally, *number);
        asked.authorised(tally, *number, &marks);
    }
    for number in &numbers[1] {
        asked.proof(tally, *number);
        for limit in asked.limits(*number) {
            asked.way_down(tally, *number, limit);
        }
    }
    for number in &numbers[2] {
        asked.witness(tally, *number);
    }
    for number in &numbers[3] {
        asked.parent(tally, *number);
    }
}

/// All numbers of a small table and some of a large one, and some that it does not have.
fn numbers(count: usize) -> Vec<u32> {
    let count = count as u32;
    let mut all: Vec<u32> = match count {
        0..=12 => (0..count).collect(),
        _ => vec![0, 1, count / 2, count - 2, count - 1],
    };
    all.extend([count, count + 1, count + 70_000, u32::MAX]);
    all
}

impl Asked<'_> {
    /// The Rust's value, 62 where it has none, or the section's refusal.
    fn value<T>(&self, of: impl FnOnce(&Section, &DecodedEvr0) -> Option<T>) -> Answer<T> {
        let (section, decoded) = self.rust.as_ref().map_err(|refusal| *refusal)?;
        of(section, decoded).ok_or(NOT_THERE)
    }

    fn proposition(&self, tally: &mut Tally, number: u32) {
        let value = self.value(|section, decoded| {
            let record = decoded.propositions.get(number as usize)?.clone();
            Some((section.tables.propositions[number as usize], record))
        });
        let name = "proposition by number";
        let raw = expected::raw_proposition(value.clone());
        self.at_its_start(
            tally,
            "proposition at its start",
            &value,
            raw,
            calls::read_proposition,
        );
        self.same(tally, name, &value, raw, |lent| {
            self.by.proposition(self.file, self.cursor, number, lent)
        });
        let port = self.by.crate_proposition(self.file, self.cursor, number);
        let port = port.map(|found| found.map(binding::proposition));
        self.same_told(tally, name, value.map(record), port);
    }

    fn proof(&self, tally: &mut Tally, number: u32) {
        let value = self.value(|section, decoded| {
            let record = decoded.proofs.get(number as usize)?.clone();
            Some((section.tables.proofs[number as usize], record))
        });
        let name = "proof by number";
        let raw = expected::raw_proof(value.clone());
        self.at_its_start(tally, "proof at its start", &value, raw, calls::read_proof);
        self.same(tally, name, &value, raw, |lent| {
            self.by.proof(self.file, self.cursor, number, lent)
        });
        let port = self.by.crate_proof(self.file, self.cursor, number);
        let port = port.map(|found| found.map(binding::proof));
        self.same_told(tally, name, value.map(record), port);
    }

    /// Witnesses and parent cells are the last tables of a section, whose cursor follows them.
    fn witness(&self, tally: &mut Tally, number: u32) {
        let value = self.value(|section, decoded| {
            let record = decoded.witnesses.get(number as usize)?.clone();
            let size = 76 + 2 * self.span();
            let after = size * (decoded.witnesses.len() - number as usize);
            let payload = section.cursor - self.cursor - 8;
            let start = payload - 4 * decoded.parents.len() - after;
            Some((start as u64, record))
        });
        let name = "witness by number";
        let raw = expected::raw_witness(value.clone());
        self.witness_at_its_place(tally, number, &value, raw);
        self.same(tally, name, &value, raw, |lent| {
            self.by.witness(self.file, self.cursor, number, lent)
        });
        let port = self.by.crate_witness(self.file, self.cursor, number);
        let port = port.map(|found| found.map(binding::witness));
        self.same_told(tally, name, value.map(record), port);
    }

    /// The bytes of a span's start, and of its end.
    fn span(&self) -> usize {
        if self.by.schema() == 2 { 8 } else { 4 }
    }

    /// Its place, and the witness and its words there. Every schema but 2 means spans of 4 bytes.
    fn witness_at_its_place(
        &self,
        tally: &mut Tally,
        number: u32,
        value: &Answer<Record<Witness>>,
        raw: raw::Witness,
    ) {
        let Ok((section, decoded)) = self.rust else {
            return;
        };
        let schema = match self.by.schema() {
            1 => [1, 0, 3, 258, 513, u16::MAX][number as usize % 6],
            schema => schema,
        };
        let payload = &self.file[self.cursor + 8..section.cursor];
        let (witnesses, parents) = (decoded.witnesses.len(), decoded.parents.len());
        let place = calls::witness_place(payload.len(), schema, witnesses, parents, number);
        let name = "witness at its place";
        tally.input((0, name));
        let Ok((start, witness)) = value else {
            tally.same(&0, &place, || self.what("place of no witness"));
            return;
        };
        tally.same(&(*start as usize), &place, || {
            self.what("place of a witness")
        });
        let read = calls::read_witness(payload, schema, place);
        tally.same(&raw, &read, || self.what(name));
        let due = expected::witness_words(*start, self.span() as u64, witness);
        let mut words = [OLD; 7];
        let there = calls::witness_words(payload, schema, &[*start], &mut words);
        tally.same(&(true, due), &(there, words), || {
            self.what("words of a witness")
        });
    }

    fn parent(&self, tally: &mut Tally, number: u32) {
        let value = self.value(|section, decoded| {
            let record = *decoded.parents.get(number as usize)?;
            let after = 4 * (decoded.parents.len() - number as usize);
            let payload = section.cursor - self.cursor - 8;
            Some(((payload - after) as u64, record))
        });
        let name = "parent by number";
        let raw = expected::raw_parent(value);
        self.same(tally, name, &value, raw, |lent| {
            self.by.parent(self.file, self.cursor, number, lent)
        });
        let port = self.by.crate_parent(self.file, self.cursor, number);
        self.same_told(tally, name, value.map(record), port);
    }

    /// With the marks, which are compared too.
    fn authorised(&self, tally: &mut Tally, number: u32, marks: &[u8]) {
        let value = self.value(|section, decoded| {
            let there = (number as usize) < section.head.counts[0];
            there.then(|| oracle::marks::authorised(decoded, marks, number))
        });
        let name = "authorised";
        let raw = expected::raw_authorised(value);
        let mut table = vec![OLD_MARK; self.rooms()[2]];
        self.same(tally, name, &value, raw, |lent| {
            self.by
                .authorised(self.file, self.cursor, number, lent, &mut table)
        });
        let marks = if value.is_ok() { marks } else { &[] };
        let left = oracle::marks::lent(marks, table.len());
        tally.same(&left, &table, || self.what("marks of authorised"));
        let port = self.by.crate_authorised(self.file, self.cursor, number);
        self.same_told(tally, name, value, port);
    }

    fn way_down(&self, tally: &mut Tally, number: u32, limit: u64) {
        let value = self.value(|section, decoded| {
            let there = (number as usize) < section.head.counts[1];
            there.then(|| expected::way_down(decoded, number, limit))
        });
        let name = match value {
            Ok(Down::Spent(_)) => "way down, spent",
            _ => "way down",
        };
        let raw = expected::raw_way_down(value);
        self.same(tally, name, &value, raw, |lent| {
            self.by
                .way_down(self.file, self.cursor, number, limit, lent)
        });
        let port = self
            .by
            .crate_way_down(self.file, self.cursor, number, limit);
        let port = port.map(|found| {
            found.map(|way| match way {
                evr0::WayDown::Witness { witness, moves } => Down::Witness(witness, moves),
                evr0::WayDown::Spent { proof } => Down::Spent(proof),
            })
        });
        self.same_told(tally, name, value, port);
    }

    /// Limits below, at and above the moves that the way down takes.
    fn limits(&self, number: u32) -> Vec<u64> {
        let whole = self.value(|section, decoded| {
            let there = (number as usize) < section.head.counts[1];
            there.then(|| expected::way_down(decoded, number, u64::MAX))
        });
        let moves = match whole {
            Ok(Down::Witness(_, moves)) => moves,
            _ => 0,
        };
        let mut limits = vec![0, 1, moves.saturating_sub(1), moves, moves + 1, u64::MAX];
        limits.sort();
        limits.dedup();
        limits
    }

    /// The record that the table has a start for, read there.
    fn at_its_start<T, R: PartialEq + Debug>(
        &self,
        tally: &mut Tally,
        name: &'static str,
        value: &Answer<Record<T>>,
        expected: R,
        read: impl FnOnce(&[u8], usize) -> R,
    ) {
        let (Ok((section, _)), Ok((start, _))) = (self.rust, value) else {
            return;
        };
        let payload = &self.file[self.cursor + 8..section.cursor];
        tally.input((0, name));
        tally.same(&expected, &read(payload, *start as usize), || {
            self.what(name)
        });
    }

    /// A C function's answer, and the tables after it: starts and depths, or zeros where it refuses.
    fn same<T, R: PartialEq + Debug>(
        &self,
        tally: &mut Tally,
        name: &'static str,
        value: &Answer<T>,
        expected: R,
        call: impl FnOnce(SectionTables) -> R,
    ) {
        let rooms = self.rooms();
        let mut tables = rooms.map(|room| vec![OLD; room]);
        let [propositions, proofs, depths] = &mut tables;
        let answer = call(SectionTables {
            propositions,
            proofs,
            depths,
        });
        let entries = match (self.rust, value) {
            (Ok((s, _)), Ok(_)) => [
                &s.tables.propositions[..],
                &s.tables.proofs[..],
                &s.tables.depths[..],
            ],
            _ => [&[][..]; 3],
        };
        let after: [Vec<u64>; 3] = std::array::from_fn(|i| lent(entries[i], rooms[i]));
        tally.input(match (self.rust, value) {
            (Err(refusal), _) => (refusal.number, "by number in a refused section"),
            (_, Err(refusal)) => (refusal.number, name),
            _ => (0, name),
        });
        tally.same(&(expected, after), &(answer, tables), || self.what(name));
    }

    /// What the crate answers.
    fn same_told<T: PartialEq + Debug>(
        &self,
        tally: &mut Tally,
        name: &'static str,
        value: Answer<T>,
        port: Result<Option<T>, evr0::Evr0Error>,
    ) {
        let rust: Told<Option<T>> = match value {
            Ok(value) => Ok(Some(value)),
            Err(NOT_THERE) => Ok(None),
            Err(_) => rust_told(
                self.by
                    .rust(self.file, &mut self.cursor.clone())
                    .map(|_| None),
            ),
        };
        tally.same(&rust, &told(port), || {
            format!("the binding, {}", self.what(name))
        });
    }

    /// Room for what the section has and one more; for a refused section as much as its bytes can hold.
    fn rooms(&self) -> [usize; 3] {
        match self.rust {
            Ok((s, _)) => {
                let [propositions, proofs, ..] = s.head.counts;
                [propositions + 1, proofs + 1, proofs + 1]
            }
            Err(_) => {
                let length = self.file.len();
                [length / 15, length / 35, length / 35]
            }
        }
    }

    fn what(&self, name: &str) -> String {
        let (rules, cursor) = (self.by.told(), self.cursor);
        format!("{name}, {rules}cursor {cursor}, {}", hex(self.file))
    }
}

fn record<T>((_, record): Record<T>) -> T {
    record
}

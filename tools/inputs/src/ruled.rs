//! Tables of rules, valid or damaged, and sections by the rules of one.

use crate::cases::{AS_IT_IS, Form, SectionCase, in_file};
use crate::marked;
use crate::random::Random;
use crate::section::Section;
use crate::shapes::{self, JOIN, NEG, OP, POS};
use crate::text::{CONTROLS, ILL_FORMED, Text, encoded, put, well_formed};

#[derive(Debug, Clone)]
pub struct Rule {
    pub name: Text,
    /// Witnesses, parents, operation, polarity.
    pub numbers: [u8; 4],
}

impl Rule {
    pub fn new(name: &[u8], numbers: [u8; 4]) -> Self {
        Rule {
            name: Text::new(name),
            numbers,
        }
    }
}

#[derive(Debug, Clone, Default)]
pub struct Table {
    pub rules: Vec<Rule>,
    /// The count that is written, where it is not the true one.
    pub count: Option<u8>,
    /// How many bytes are left out at the end, and what is appended there.
    pub cut: usize,
    pub more: Vec<u8>,
}

impl Table {
    pub fn new(rules: Vec<Rule>) -> Self {
        Table {
            rules,
            ..Default::default()
        }
    }

    pub fn bytes(&self) -> Vec<u8> {
        let mut out = vec![self.count.unwrap_or(self.rules.len() as u8)];
        for rule in &self.rules {
            rule.name.write(&mut out);
            out.extend(rule.numbers);
        }
        out.truncate(out.len().saturating_sub(self.cut));
        out.extend(&self.more);
        out
    }
}

// ---- Valid tables

/// Every shape that a rule may have.
pub const SHAPES: [[u8; 4]; 8] = [
    [1, 0, 0, 0],
    [1, 0, 0, 1],
    [1, 0, 1, 0],
    [1, 0, 1, 1],
    [0, 1, 0, 2],
    [0, 1, 1, 2],
    [0, 2, 0, 2],
    [0, 2, 1, 2],
];

/// The four, in document 01's order.
pub fn four() -> [Rule; 4] {
    [
        Rule::new(POS, [1, 0, 0, 1]),
        Rule::new(NEG, [1, 0, 0, 0]),
        Rule::new(JOIN, [0, 2, 0, 2]),
        Rule::new(OP, [0, 1, 1, 2]),
    ]
}

/// The four in each of their 24 orders.
pub fn orders() -> Vec<Table> {
    let mut all = vec![];
    for places in 0..4 * 3 * 2 {
        let mut left = four().to_vec();
        let mut table = vec![];
        for (divisor, length) in [(1, 4), (4, 3), (12, 2), (24, 1)] {
            table.push(left.remove(places / divisor % length));
        }
        all.push(Table::new(table));
    }
    all
}

/// So many names of 64 bytes that share the first 62.
pub fn names_alike(count: usize) -> Vec<Vec<u8>> {
    let last = |n: usize| [b'a' + (n / 8) as u8, b'a' + (n % 8) as u8];
    (0..count)
        .map(|n| [&[b'n'; 62][..], &last(n)].concat())
        .collect()
}

/// So many names of 64 bytes that differ in the middle alone.
pub fn names_alike_at_both_ends(count: usize) -> Vec<Vec<u8>> {
    let mut names = names_alike(count);
    for name in &mut names {
        name.rotate_left(31);
    }
    names
}

/// Names of 64 bytes. Each of the first seven differs from all others in one word of eight bytes, and these in the last word alone: of a search by words
/// each word but the last leaves all but one.
pub fn names_of_a_deep_tree(count: usize) -> Vec<Vec<u8>> {
    let name = |n: usize| {
        let mut name = [&[b'n'; 56][..], format!("{n:08}").as_bytes()].concat();
        if n < 7 {
            name[8 * n] = b'o';
        }
        name
    };
    (0..count).map(name).collect()
}

/// So many names, of one of several makes; few where they happen to be equal.
fn names(r: &mut Random, count: usize) -> Vec<Vec<u8>> {
    let mut names: Vec<Vec<u8>> = match r.below(7) {
        0 => (0..count).map(|n| vec![b'A' + n as u8]).collect(),
        1 => names_alike(count),
        2 => names_alike_at_both_ends(count),
        3 => names_of_a_deep_tree(count),
        4 => (1..=count).map(|n| vec![b'n'; 2 * n]).collect(),
        5 => {
            let four = [POS, NEG, JOIN, OP].map(<[u8]>::to_vec);
            let more = (4..count).map(|n| vec![b'A' + n as u8]);
            four.into_iter().chain(more).take(count).collect()
        }
        _ => (0..count)
            .map(|_| {
                let least = r.within(1, 61);
                well_formed(r, least)
            })
            .collect(),
    };
    names.sort();
    names.dedup();
    let turn = r.below(names.len());
    names.rotate_left(turn);
    names
}

/// A table that loads.
pub fn table(r: &mut Random) -> Table {
    let some = r.within(1, 32);
    let count = r.pick(&[1, 2, 3, 4, 8, 31, 32, some]);
    let names = names(r, count);
    Table::new(
        names
            .iter()
            .map(|name| Rule::new(name, r.pick(&SHAPES)))
            .collect(),
    )
}

// ---- Damaged tables

type Fault = fn(&mut Table, &mut Random);

const FAULTS: [Fault; 12] = [
    count,
    cut,
    left_over,
    name_length,
    name_long,
    name_ill_formed,
    name_control,
    numbers,
    numbers,
    twice,
    twice,
    twice_and_outside,
];

/// A table with one fault, often with a second one.
pub fn damaged(r: &mut Random, mut table: Table) -> Table {
    let faults = if r.one_in(3) { 2 } else { 1 };
    for _ in 0..faults {
        r.pick(&FAULTS)(&mut table, r);
    }
    table
}

fn any<'a>(table: &'a mut Table, r: &mut Random) -> &'a mut Rule {
    let count = table.rules.len();
    &mut table.rules[r.below(count)]
}

fn count(table: &mut Table, r: &mut Random) {
    let true_count = table.rules.len() as u8;
    let any = r.byte();
    table.count = Some(r.pick(&[0, 33, 255, true_count + 1, true_count - 1, any]));
}

fn cut(table: &mut Table, r: &mut Random) {
    table.cut += 1 + r.below(table.bytes().len().max(1));
}

fn left_over(table: &mut Table, r: &mut Random) {
    table.more = (0..r.within(1, 9))
        .map(|_| r.pick(&[0, 1, 2, b'a']))
        .collect();
}

fn name_length(table: &mut Table, r: &mut Random) {
    let name = &mut any(table, r).name;
    let length = name.bytes.len() as u16;
    name.length = Some(r.pick(&[0, 65, length + 1, length - 1, length + 256, u16::MAX]));
}

fn name_long(table: &mut Table, r: &mut Random) {
    let length = r.within(63, 66);
    let fill = r.pick(&['x', '\u{e5}', '\u{20ac}', '\u{1f600}']);
    let name = &mut any(table, r).name;
    name.bytes = encoded(fill).repeat(length / fill.len_utf8());
    name.bytes.resize(length, b'x');
}

fn name_ill_formed(table: &mut Table, r: &mut Random) {
    let bytes = r.pick(&ILL_FORMED);
    let name = &mut any(table, r).name;
    name.bytes.truncate(60);
    put(r, name, bytes);
}

fn name_control(table: &mut Table, r: &mut Random) {
    let control = encoded(r.pick(&CONTROLS));
    let name = &mut any(table, r).name;
    name.bytes = match r.one_in(2) {
        true => [&control[..], b"n"].concat(),
        false => [b"n", &control[..]].concat(),
    };
}

fn numbers(table: &mut Table, r: &mut Random) {
    let place = r.below(4);
    any(table, r).numbers[place] = r.pick(&[0, 1, 2, 3, 4, 128, 255]);
}

fn twice(table: &mut Table, r: &mut Random) {
    let name = any(table, r).name.clone();
    let other = any(table, r);
    other.name = name;
    if r.one_in(2) {
        other.numbers = r.pick(&SHAPES);
    }
}

/// A name twice, and a rule outside its bounds before it, in it or after it.
fn twice_and_outside(table: &mut Table, r: &mut Random) {
    twice(table, r);
    numbers(table, r);
}

// ---- Sections by the rules of a table

/// A table and a section by its rules somewhere in a file, valid or damaged.
pub fn section(r: &mut Random) -> (Table, SectionCase) {
    section_in(r, AS_IT_IS)
}

/// The same in this form.
pub fn section_in(r: &mut Random, form: Form) -> (Table, SectionCase) {
    let table = table(r);
    let proofs = r.within(255, 258) as u32;
    let section = match r.below(40) {
        0 => shapes::many(r),
        1 => shapes::chain(r, proofs),
        2..=16 => marked::ruling(r),
        17..=20 => marked::operations(r),
        _ => shapes::small(r),
    };
    let section = by(r, &table, section);
    let mut section = form(r, section);
    if r.one_in(4) {
        misnamed(r, &table, &mut section);
    }
    if r.one_in(8) {
        other_polarity(r, &mut section);
    }
    let whole = r.one_in(3);
    let case = match whole {
        true => SectionCase {
            file: section.bytes(),
            cursor: 0,
        },
        false => in_file(r, section),
    };
    (table, case)
}

/// The section with each proof by a rule of the table that has as many witnesses and parents; where there is none, proofs stay as they are.
pub fn by(r: &mut Random, table: &Table, mut section: Section) -> Section {
    for proof in &mut section.proofs {
        let fits = |rule: &&Rule| {
            let [witnesses, parents, ..] = rule.numbers.map(u32::from);
            (witnesses, parents) == (proof.witness_count, proof.parent_count)
        };
        let fitting: Vec<&Rule> = table.rules.iter().filter(fits).collect();
        if fitting.is_empty() {
            continue;
        }
        let rule = r.pick(&fitting);
        let [_, _, operation, polarity] = rule.numbers;
        proof.rule = rule.name.clone();
        proof.operation = operation;
        if proof.witness_count == 1 {
            section.witnesses[proof.witness_first as usize].polarity = polarity;
        }
    }
    section
}

/// A proof by another rule of the table, by one of the four, or by a name that is nearly one of the table's.
fn misnamed(r: &mut Random, table: &Table, section: &mut Section) {
    let Some(last) = section.proofs.len().checked_sub(1) else {
        return;
    };
    let name = &mut section.proofs[r.within(0, last)].rule.bytes;
    *name = table.rules[r.below(table.rules.len())].name.bytes.clone();
    let (middle, end) = (name.len() / 2, name.len() - 1);
    match r.below(7) {
        0 => *name = r.pick(&[POS, NEG, JOIN, OP]).to_vec(),
        1 if name.is_ascii() => name[end] = b'?',
        2 if name.is_ascii() => name[middle] = b'?',
        3 if name.is_ascii() => name[0] = b'?',
        4 if name.is_ascii() && end > 0 => name.truncate(end),
        5 => name.push(b'n'),
        _ => (),
    }
}

/// A witness of the other polarity.
fn other_polarity(r: &mut Random, section: &mut Section) {
    if let Some(last) = section.witnesses.len().checked_sub(1) {
        let witness = &mut section.witnesses[r.within(0, last)];
        witness.polarity = 1 - witness.polarity;
    }
}

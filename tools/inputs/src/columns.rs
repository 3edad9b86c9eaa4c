//! Column files: those of sections, valid or damaged, and such as are no columns. Only for making inputs; no comparison rests on it.

use crate::random::Random;
use crate::section::Section;
use crate::section_faults;
use crate::shapes;
use crate::text::Text;
use crate::wide::wide;

/// A column file in pieces, so that a number is found and written in other groups.
#[derive(Debug, Clone, Default)]
pub struct Columns {
    pub pieces: Vec<Piece>,
    /// How many bytes are left out at the end, and what is appended there.
    pub cut: usize,
    pub more: Vec<u8>,
}

#[derive(Debug, Clone)]
pub enum Piece {
    Bytes(Vec<u8>),
    /// A number of a field of so many bytes.
    Number(u64, usize),
}

use Piece::{Bytes, Number};

/// The pieces before the counts, and those of the counts.
const BEFORE_COUNTS: usize = 5;
const COUNTS: usize = 4;

impl Columns {
    /// The columns of a section as it is written, whatever its fields are.
    pub fn of(s: &Section) -> Self {
        let mut out = Columns::default();
        let bytes = s.bytes();
        let copied = bytes.len().min(78);
        out.pieces.push(Bytes(bytes[..copied].to_vec()));
        out.text(&s.policy);
        out.text(&s.issuer);
        let lengths = [
            s.propositions.len(),
            s.proofs.len(),
            s.witnesses.len(),
            s.parents.len(),
        ];
        for (count, length) in s.counts.iter().zip(lengths) {
            out.numbers(4, &[count.unwrap_or(length as u32).into()]);
        }
        out.propositions(s);
        out.proofs(s);
        out.witnesses(s);
        for parent in &s.parents {
            out.numbers(4, &[(*parent).into()]);
        }
        out
    }

    fn propositions(&mut self, s: &Section) {
        for p in &s.propositions {
            self.text(&p.kind);
        }
        for column in 0..3 {
            for p in &s.propositions {
                let numbers = [p.owner, p.scope, p.obligation];
                self.numbers(4, &[numbers[column].into()]);
            }
        }
    }

    fn proofs(&mut self, s: &Section) {
        for column in 0..10 {
            for p in &s.proofs {
                let numbers = [
                    p.number,
                    p.proposition,
                    0,
                    p.authority,
                    p.witness_first,
                    p.witness_count,
                    p.parent_first,
                    p.parent_count,
                ];
                match column {
                    2 => self.text(&p.rule),
                    8 => self.pieces.push(Bytes(vec![p.operation])),
                    9 => self.pieces.push(Bytes(p.zeros.to_vec())),
                    _ => self.numbers(4, &[numbers[column].into()]),
                }
            }
        }
    }

    fn witnesses(&mut self, s: &Section) {
        let span = if s.schema == 2 { 8 } else { 4 };
        for column in 0..8 {
            for w in &s.witnesses {
                match column {
                    0 => self.numbers(4, &[w.number.into()]),
                    1 => self.numbers(4, &[w.proposition.into()]),
                    2 => self.pieces.push(Bytes(vec![w.polarity])),
                    3 => self.pieces.push(Bytes(w.zeros.to_vec())),
                    4 => self.pieces.push(Bytes(w.file.to_vec())),
                    5 => self.numbers(span, &[w.start]),
                    6 => self.numbers(span, &[w.end]),
                    _ => self.pieces.push(Bytes(w.origin.to_vec())),
                }
            }
        }
    }

    fn numbers(&mut self, width: usize, numbers: &[u64]) {
        for number in numbers {
            self.pieces.push(Number(*number, width));
        }
    }

    fn text(&mut self, text: &Text) {
        let length = text.length.map_or(text.bytes.len() as u64, u64::from);
        self.numbers(2, &[length]);
        self.pieces.push(Bytes(text.bytes.clone()));
    }

    pub fn bytes(&self) -> Vec<u8> {
        let mut out = vec![];
        for piece in &self.pieces {
            match piece {
                Bytes(bytes) => out.extend(bytes),
                Number(number, _) => out.extend(groups(*number, 0)),
            }
        }
        out.truncate(out.len().saturating_sub(self.cut));
        out.extend(&self.more);
        out
    }

    /// The places of the numbers among the pieces.
    fn numbers_at(&self) -> Vec<usize> {
        let places = 0..self.pieces.len();
        places
            .filter(|place| matches!(self.pieces[*place], Number(..)))
            .collect()
    }
}

/// A number in groups, with so many more than it needs.
pub fn groups(mut number: u64, more: usize) -> Vec<u8> {
    let mut out = vec![];
    while number > 0x7F {
        out.push(number as u8 | 0x80);
        number >>= 7;
    }
    out.push(number as u8);
    for _ in 0..more {
        *out.last_mut().expect("a group") |= 0x80;
        out.push(0);
    }
    out
}

type Fault = fn(&mut Columns, &mut Random);

const FAULTS: [Fault; 12] = [
    more_groups,
    more_groups,
    too_large,
    too_large,
    too_large_at_last,
    without_end,
    cut,
    cut,
    left_over,
    payload_length,
    count,
    huge_count,
];

/// A file with one fault, often with a second one.
pub fn damaged(r: &mut Random, mut columns: Columns) -> Columns {
    let faults = if r.one_in(3) { 2 } else { 1 };
    for _ in 0..faults {
        r.pick(&FAULTS)(&mut columns, r);
    }
    columns
}

/// Any number, or one of a width that is seldom.
fn any_number<'a>(columns: &'a mut Columns, r: &mut Random) -> Option<(&'a mut Piece, u64, usize)> {
    let mut places = columns.numbers_at();
    let width = r.pick(&[2, 4, 8]);
    let of_width = |place: &usize| matches!(columns.pieces[*place], Number(_, w) if w == width);
    if r.one_in(2) && places.iter().any(of_width) {
        places.retain(of_width);
    }
    if places.is_empty() {
        return None;
    }
    let piece = &mut columns.pieces[r.pick(&places)];
    let Number(number, width) = *piece else {
        return None;
    };
    Some((piece, number, width))
}

fn more_groups(columns: &mut Columns, r: &mut Random) {
    if let Some((piece, number, _)) = any_number(columns, r) {
        *piece = Bytes(groups(number, r.within(1, 3)));
    }
}

/// The field's width passed by a little or by much, in as few groups as it needs.
fn too_large(columns: &mut Columns, r: &mut Random) {
    if let Some((piece, number, width)) = any_number(columns, r) {
        let bits = 8 * width as u32;
        let (any, top) = (r.u64(), r.u64());
        *piece = Bytes(match bits {
            64 => {
                let mut out = groups(any | 1 << 63, 0);
                out[9] = (top % 126) as u8 + 2;
                out
            }
            _ => groups(
                r.pick(&[
                    1 << bits,
                    number + (1 << bits),
                    any | 1 << bits,
                    any >> (63 - bits) | 1 << bits,
                ]),
                0,
            ),
        });
    }
}

/// All groups but the last full, and the last one any byte.
fn too_large_at_last(columns: &mut Columns, r: &mut Random) {
    if let Some((piece, _, width)) = any_number(columns, r) {
        let mut out = vec![0xFF; 8 * width / 7];
        out.push(r.byte());
        *piece = Bytes(out);
    }
}

/// Groups that go on.
fn without_end(columns: &mut Columns, r: &mut Random) {
    if let Some((piece, _, _)) = any_number(columns, r) {
        let group = r.pick(&[0x80, 0x81, 0xFF]);
        *piece = Bytes(vec![group; r.within(1, 12)]);
    }
}

fn cut(columns: &mut Columns, r: &mut Random) {
    let length = columns.bytes().len();
    let few = r.below(12);
    let any = r.below(length + 1);
    columns.cut += r.pick(&[few, any]);
}

fn left_over(columns: &mut Columns, r: &mut Random) {
    columns.more = (0..r.within(1, 9)).map(|_| r.byte()).collect();
}

fn payload_length(columns: &mut Columns, r: &mut Random) {
    if let Some(Bytes(head)) = columns.pieces.first_mut()
        && let Some(field) = head.get_mut(4..8)
    {
        let bytes: [u8; 4] = field.try_into().expect("four bytes");
        let length = u32::from_le_bytes(bytes);
        let below = r.below(length as usize + 1) as u32;
        let other = r.pick(&[
            0,
            length.wrapping_add(1),
            length.wrapping_sub(1),
            below,
            below,
            4_194_304,
            4_194_305,
            u32::MAX,
        ]);
        field.copy_from_slice(&other.to_le_bytes());
    }
}

fn count(columns: &mut Columns, r: &mut Random) {
    if let Some(Number(count, _)) = columns.pieces.get_mut(BEFORE_COUNTS + r.below(COUNTS)) {
        *count = match r.one_in(2) {
            true => *count + 1,
            false => count.saturating_sub(1),
        };
    }
}

/// A count of 2^32 - 1 or near it, with the columns that are there, or with none.
fn huge_count(columns: &mut Columns, r: &mut Random) {
    let table = r.below(COUNTS);
    if let Some(Number(count, _)) = columns.pieces.get_mut(BEFORE_COUNTS + table) {
        *count = u64::from(u32::MAX - r.below(2) as u32);
        if r.one_in(2) {
            columns.pieces.truncate(BEFORE_COUNTS + COUNTS);
        }
    }
}

/// A text without bytes, which no fault of a section writes.
fn empty_text(s: &mut Section, r: &mut Random) {
    let (propositions, proofs) = (s.propositions.len(), s.proofs.len());
    let text = match r.below(4) {
        0 => &mut s.policy,
        1 => &mut s.issuer,
        2 if propositions > 0 => &mut s.propositions[r.below(propositions)].kind,
        _ if proofs > 0 => &mut s.proofs[r.below(proofs)].rule,
        _ => &mut s.policy,
    };
    *text = Text::new(b"");
}

/// The columns of a small section, valid or damaged in its fields, in the file, or in both.
pub fn small(r: &mut Random) -> Vec<u8> {
    let section = shapes::small(r);
    of_section(r, section)
}

/// The same of a section of some hundred records.
pub fn many(r: &mut Random) -> Vec<u8> {
    let section = shapes::many(r);
    of_section(r, section)
}

fn of_section(r: &mut Random, mut section: Section) -> Vec<u8> {
    if r.one_in(3) {
        section = wide(r, section);
    }
    match r.below(8) {
        0..4 => (),
        4 => empty_text(&mut section, r),
        _ => section = section_faults::damaged(r, section),
    }
    let columns = Columns::of(&section);
    match r.below(8) {
        0..4 => columns.bytes(),
        4 => section_faults::scrambled(r, columns.bytes()),
        _ => damaged(r, columns).bytes(),
    }
}

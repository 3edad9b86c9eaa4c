//! Sections by column, which the Rust does not have, in plain lines from the words of document 02's Slip 13.

/// What a field is.
#[derive(Clone, Copy)]
enum Field {
    /// A whole number of so many bytes.
    Number(usize),
    /// A text: a 2-byte length, and its bytes right behind it.
    Text,
    /// So many bytes that are copied.
    Bytes(usize),
}

use Field::{Bytes, Number, Text};

const TAG: Field = Bytes(4);
const PAYLOAD_LENGTH: Field = Bytes(4);
const SCHEMA: Field = Bytes(2);
const FLAGS: Field = Bytes(2);
const DIGEST: Field = Bytes(32);
const EPOCH: Field = Bytes(2);
const COUNT: Field = Number(4);
const OPERATION: Field = Bytes(1);
const POLARITY: Field = Bytes(1);
const RESERVED: Field = Bytes(3);

/// Before the tables, with both namespaces.
const HEAD: [Field; 13] = [
    TAG,
    PAYLOAD_LENGTH,
    SCHEMA,
    FLAGS,
    DIGEST,
    DIGEST,
    EPOCH,
    Text,
    Text,
    COUNT,
    COUNT,
    COUNT,
    COUNT,
];

const SCHEMA_AT: usize = 2;
const COUNTS_AT: usize = 9;

/// Propositions: kind, owner, scope, type. Proofs: number, proposition, rule, authority, first witness, witness count, first parent, parent
/// count, operation, reserved bytes. Witnesses: number, proposition, polarity, reserved bytes, digest, span start, span end, digest. Parents.
fn tables(schema: &[u8]) -> [Vec<Field>; 4] {
    let n = Number(4);
    let span = if schema == [2, 0] { Number(8) } else { n };
    [
        vec![Text, n, n, n],
        vec![n, n, Text, n, n, n, n, n, OPERATION, RESERVED],
        vec![n, n, POLARITY, RESERVED, DIGEST, span, span, DIGEST],
        vec![n],
    ]
}

/// A refusal's number, its offset, and which of its conditions was met.
pub type Wrong = (u8, usize, &'static str);

/// Some bytes that are read from the front.
struct Reader<'a> {
    bytes: &'a [u8],
    at: usize,
}

/// One field's value: the bytes that it has in a section, a text's without its length.
type Value<'a> = std::borrow::Cow<'a, [u8]>;

// ---- Writing

/// The columns of an accepted section.
pub fn write(section: &[u8]) -> Vec<u8> {
    let mut rows = Reader {
        bytes: section,
        at: 0,
    };
    let head = HEAD.map(|field| rows.in_row(field));
    let mut out = vec![];
    for (field, value) in HEAD.iter().zip(&head) {
        put_in_column(&mut out, *field, value);
    }
    for (count, fields) in head[COUNTS_AT..].iter().zip(tables(&head[SCHEMA_AT])) {
        let records: Vec<Vec<Value>> = (0..number_in(count))
            .map(|_| fields.iter().map(|field| rows.in_row(*field)).collect())
            .collect();
        for (place, field) in fields.iter().enumerate() {
            for record in &records {
                put_in_column(&mut out, *field, &record[place]);
            }
        }
    }
    assert_eq!(rows.at, section.len(), "all of the section is read");
    out
}

fn put_in_column(out: &mut Vec<u8>, field: Field, value: &[u8]) {
    match field {
        Bytes(_) => out.extend(value),
        Number(_) => out.extend(groups(number_in(value))),
        Text => {
            out.extend(groups(value.len() as u64));
            out.extend(value);
        }
    }
}

/// Groups of seven bits, lowest first, the top bit set on all but the last. How many follows from the leading zeros; zero takes one.
fn groups(number: u64) -> Vec<u8> {
    let bits = 64 - number.leading_zeros();
    let count = if number == 0 { 1 } else { bits.div_ceil(7) };
    let group = |place: u32| (number >> (7 * place)) as u8 & 0x7F;
    let mut groups: Vec<u8> = (0..count).map(|place| group(place) | 0x80).collect();
    if let Some(last) = groups.last_mut() {
        *last &= 0x7F;
    }
    groups
}

/// Little-endian.
fn number_in(value: &[u8]) -> u64 {
    value.iter().rev().fold(0, |n, b| n << 8 | u64::from(*b))
}

// ---- Taking back

/// The section of some columns, whether or not a decoder accepts it.
pub fn take(columns: &[u8]) -> Result<Vec<u8>, Wrong> {
    let mut file = Reader {
        bytes: columns,
        at: 0,
    };
    let (mut head, mut out) = (vec![], vec![]);
    for field in HEAD {
        let value = file.in_column(field)?;
        put_in_row(&mut out, field, &value);
        head.push(value);
    }
    for (count, fields) in head[COUNTS_AT..].iter().zip(tables(&head[SCHEMA_AT])) {
        let mut table: Vec<Vec<Value>> = vec![];
        for field in &fields {
            let mut column = vec![];
            for _ in 0..number_in(count) {
                column.push(file.in_column(*field)?);
            }
            table.push(column);
        }
        for record in 0..number_in(count) as usize {
            for (field, column) in fields.iter().zip(&table) {
                put_in_row(&mut out, *field, &column[record]);
            }
        }
    }
    match file.at == columns.len() {
        true => Ok(out),
        false => Err((76, file.at, "left over")),
    }
}

fn put_in_row(out: &mut Vec<u8>, field: Field, value: &[u8]) {
    if let Text = field {
        out.extend((value.len() as u16).to_le_bytes());
    }
    out.extend(value);
}

/// Whether some right number of a field of so many bytes begins with these groups: the least that does, if any does.
fn begins_a_number(front: &[u8], width: usize) -> Result<(), &'static str> {
    let mut least: u128 = 0;
    for (place, group) in front.iter().enumerate() {
        least += u128::from(group & 0x7F) << (7 * place);
    }
    if goes_on(front) {
        least += 1 << (7 * front.len());
    }
    if least >= 1 << (8 * width) {
        return Err(match width {
            2 => "too large for 2 bytes",
            4 => "too large for 4 bytes",
            _ => "too large for 8 bytes",
        });
    }
    match groups(least as u64).starts_with(front) {
        true => Ok(()),
        false => Err("more groups than needed"),
    }
}

fn goes_on(front: &[u8]) -> bool {
    front.last().is_some_and(|group| *group >= 0x80)
}

impl<'a> Reader<'a> {
    /// The next so many bytes, or that they are cut.
    fn next(&mut self, count: usize, what: &'static str) -> Result<&'a [u8], Wrong> {
        let bytes = self.bytes.get(self.at..self.at + count);
        self.at += count;
        bytes.ok_or((76, self.bytes.len(), what))
    }

    /// A number in groups, as the bytes that its field has in a section.
    fn number(&mut self, width: usize) -> Result<Vec<u8>, Wrong> {
        let start = self.at;
        loop {
            self.next(1, "a number cut")?;
            let front = &self.bytes[start..self.at];
            begins_a_number(front, width).map_err(|why| (75, self.at - 1, why))?;
            if !goes_on(front) {
                let groups = front.iter().rev();
                let number = groups.fold(0, |n: u64, group| n << 7 | u64::from(group & 0x7F));
                return Ok(number.to_le_bytes()[..width].to_vec());
            }
        }
    }

    fn in_column(&mut self, field: Field) -> Result<Value<'a>, Wrong> {
        match field {
            Bytes(count) => Ok(self.next(count, "bytes cut")?.into()),
            Number(width) => Ok(self.number(width)?.into()),
            Text => {
                let length = number_in(&self.number(2)?);
                Ok(self.next(length as usize, "a text cut")?.into())
            }
        }
    }

    fn in_row(&mut self, field: Field) -> Value<'a> {
        let count = match field {
            Bytes(count) | Number(count) => count,
            Text => number_in(&self.in_row(Bytes(2))) as usize,
        };
        self.next(count, "").expect("a whole section").into()
    }
}

// ---- Outputs, and which refusal comes first

/// Whether an output of so many bytes is refused, with 61.
pub fn is_short(room: usize, length: usize) -> bool {
    room < length
}

/// An output of so many bytes after a call: what is written, and zeros; nothing is written after a refusal.
pub fn lent(written: &[u8], room: usize) -> Vec<u8> {
    let mut output = written.to_vec();
    output.resize(room, 0);
    output
}

/// Writing: the decoder's refusal, then that of the output.
pub fn first_of_writing<T>(decoder: Option<T>, output: Option<T>) -> Option<T> {
    decoder.or(output)
}

/// Taking back: the columns' refusal, then that of the output, still before the decoder's.
pub fn first_of_taking<T>(columns: Option<T>, output: Option<T>, decoder: Option<T>) -> Option<T> {
    columns.or(output).or(decoder)
}

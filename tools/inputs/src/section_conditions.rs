//! Which condition of document 01's table a section met: the clause, the field or the text behind a refusal's number. Only for counts and
//! for picking inputs; no comparison rests on it.

use answers::Answer;
use answers::refusal::Refusal;

/// Every condition that a section can meet, but for 61. 14 and 15 cannot be given.
pub const REACHABLE: [(u8, &str); 90] = [
    (1, ""),
    (2, ""),
    (3, "length 0"),
    (3, "length above the limit"),
    (4, ""),
    (5, "schema"),
    (5, "flags"),
    (5, "source set"),
    (5, "compiler contract"),
    (5, "epoch"),
    (5, "policy length"),
    (5, "policy"),
    (5, "issuer length"),
    (5, "issuer"),
    (5, "proposition count"),
    (5, "proof count"),
    (5, "witness count"),
    (5, "parent count"),
    (5, "kind length"),
    (5, "kind"),
    (5, "owner"),
    (5, "scope"),
    (5, "type"),
    (5, "proof number"),
    (5, "proof's proposition"),
    (5, "rule length"),
    (5, "rule"),
    (5, "authority"),
    (5, "first witness"),
    (5, "proof's witness count"),
    (5, "first parent"),
    (5, "proof's parent count"),
    (5, "operation"),
    (5, "proof's zeros"),
    (5, "witness number"),
    (5, "witness's proposition"),
    (5, "polarity"),
    (5, "witness's zeros"),
    (5, "file digest"),
    (5, "span start"),
    (5, "span end"),
    (5, "origin digest"),
    (5, "parent"),
    (6, "text length 0"),
    (6, "text length above the limit"),
    (7, "policy"),
    (7, "issuer"),
    (7, "kind"),
    (7, "rule"),
    (8, "policy"),
    (8, "issuer"),
    (8, "kind"),
    (8, "rule"),
    (9, "proof"),
    (9, "witness"),
    (10, ""),
    (11, ""),
    (12, "propositions"),
    (12, "proofs"),
    (12, "witnesses"),
    (12, "parents"),
    (13, ""),
    (16, "kind falls"),
    (16, "owner falls"),
    (16, "scope falls"),
    (16, "type falls"),
    (16, "repeated"),
    (17, "number not its place"),
    (17, "no such proposition"),
    (18, "first witness"),
    (18, "first parent"),
    (19, "witnesses past the count"),
    (19, "parents past the count"),
    (20, ""),
    (21, ""),
    (22, "witnesses unowned"),
    (22, "parents unowned"),
    (23, "number not its place"),
    (23, "no such proposition"),
    (23, "polarity above 1"),
    (23, "start after end"),
    (24, ""),
    (25, "no such parent"),
    (25, "parent not below its proof"),
    (25, "parent not above the one before"),
    (26, "another proposition"),
    (26, "another authority"),
    (27, ""),
    (28, ""),
    (29, ""),
];

/// Further conditions of schema 2.
pub const OF_SCHEMA_2: [(u8, &str); 4] =
    [(5, START_CUT), (5, END_CUT), (13, BY_92), (23, BY_UPPER)];

const START_CUT: &str = "span start, in its second half";
const END_CUT: &str = "span end, in its second half";
const BY_92: &str = "by 92, and not by 84";
const BY_UPPER: &str = "start after end, by the upper halves alone";

/// A section's records as they stand, unchecked, up to the first field that passes the payload's end.
#[derive(Default)]
struct Records<'a> {
    schema: u32,
    /// The bytes of the payload behind the counts.
    rest: usize,
    texts: Vec<(&'static str, usize, usize)>,
    counts_at: usize,
    counts: [u32; 4],
    propositions: Vec<(usize, &'a [u8], [u32; 3])>,
    proofs: Vec<Proof>,
    witnesses: Vec<(usize, [u32; 2], u8, [u64; 2])>,
    parents_at: usize,
    parents: Vec<u32>,
}

struct Proof {
    start: usize,
    number: u32,
    proposition: u32,
    witness_first: u32,
    witness_count: u32,
    parent_first: u32,
    parent_count: u32,
}

struct Reader<'a> {
    payload: &'a [u8],
    at: usize,
}

/// The name of the field that passes the end.
type Cut = &'static str;

impl<'a> Reader<'a> {
    fn take(&mut self, name: Cut, width: usize) -> Result<&'a [u8], Cut> {
        let field = self.payload.get(self.at..self.at + width).ok_or(name)?;
        self.at += width;
        Ok(field)
    }

    fn number(&mut self, name: Cut, width: usize) -> Result<u32, Cut> {
        let bytes = self.take(name, width)?;
        Ok(bytes.iter().rev().fold(0, |n, &b| n << 8 | b as u32))
    }

    /// A span's start or end, and the name of one that is cut after 4 bytes.
    fn span(&mut self, name: Cut, second: Cut, width: usize) -> Result<u64, Cut> {
        let first = self.number(name, 4)?;
        let upper = match width {
            8 => self.number(second, 4)?,
            _ => 0,
        };
        Ok(u64::from(upper) << 32 | u64::from(first))
    }

    fn text(
        &mut self,
        names: [Cut; 2],
        texts: &mut Vec<(Cut, usize, usize)>,
    ) -> Result<&'a [u8], Cut> {
        let length = self.number(names[0], 2)? as usize;
        let start = self.at;
        texts.push((names[1], start, start + length));
        self.take(names[1], length)
    }
}

impl<'a> Records<'a> {
    fn read(&mut self, payload: &'a [u8]) -> Result<(), Cut> {
        let r = &mut Reader { payload, at: 0 };
        self.schema = r.number("schema", 2)?;
        let span = if self.schema == 2 { 8 } else { 4 };
        r.take("flags", 2)?;
        r.take("source set", 32)?;
        r.take("compiler contract", 32)?;
        r.take("epoch", 2)?;
        r.text(["policy length", "policy"], &mut self.texts)?;
        r.text(["issuer length", "issuer"], &mut self.texts)?;
        self.counts_at = r.at;
        for (count, name) in self.counts.iter_mut().zip([
            "proposition count",
            "proof count",
            "witness count",
            "parent count",
        ]) {
            *count = r.number(name, 4)?;
        }
        self.rest = payload.len() - r.at;
        for _ in 0..self.counts[0] {
            let start = r.at;
            let kind = r.text(["kind length", "kind"], &mut self.texts)?;
            let numbers = [
                r.number("owner", 4)?,
                r.number("scope", 4)?,
                r.number("type", 4)?,
            ];
            self.propositions.push((start, kind, numbers));
        }
        for _ in 0..self.counts[1] {
            let proof = proof(r, &mut self.texts)?;
            self.proofs.push(proof);
        }
        for _ in 0..self.counts[2] {
            let start = r.at;
            let numbers = [
                r.number("witness number", 4)?,
                r.number("witness's proposition", 4)?,
            ];
            let polarity = r.number("polarity", 1)? as u8;
            r.take("witness's zeros", 3)?;
            r.take("file digest", 32)?;
            let span = [
                r.span("span start", START_CUT, span)?,
                r.span("span end", END_CUT, span)?,
            ];
            r.take("origin digest", 32)?;
            self.witnesses.push((start, numbers, polarity, span));
        }
        self.parents_at = r.at;
        for _ in 0..self.counts[3] {
            self.parents.push(r.number("parent", 4)?);
        }
        Ok(())
    }
}

fn proof(r: &mut Reader, texts: &mut Vec<(Cut, usize, usize)>) -> Result<Proof, Cut> {
    let start = r.at;
    let number = r.number("proof number", 4)?;
    let proposition = r.number("proof's proposition", 4)?;
    r.text(["rule length", "rule"], texts)?;
    r.take("authority", 4)?;
    let proof = Proof {
        start,
        number,
        proposition,
        witness_first: r.number("first witness", 4)?,
        witness_count: r.number("proof's witness count", 4)?,
        parent_first: r.number("first parent", 4)?,
        parent_count: r.number("proof's parent count", 4)?,
    };
    r.take("operation", 1)?;
    r.take("proof's zeros", 3)?;
    Ok(proof)
}

/// The condition behind a refusal of the section at a cursor.
pub fn condition(bytes: &[u8], cursor: usize, refusal: &Refusal) -> &'static str {
    if refusal.number <= 4 {
        return match refusal.number {
            3 if bytes[cursor + 4..cursor + 8] == [0; 4] => "length 0",
            3 => "length above the limit",
            _ => "",
        };
    }
    let start = cursor + 8;
    let length = u32::from_le_bytes(bytes[cursor + 4..start].try_into().expect("4 bytes"));
    let payload = &bytes[start..start + length as usize];
    let mut records = Records::default();
    let cut = records.read(payload).err();
    match refusal.number {
        5 => cut.unwrap_or("?"),
        number => clause(&records, number, refusal.offset - start),
    }
}

/// The four counts of a section whose head reads, and the place in the file after them.
pub fn counts(bytes: &[u8], cursor: usize) -> ([u32; 4], usize) {
    let mut records = Records::default();
    let start = cursor + 8;
    let cut = records.read(&bytes[start..]);
    assert!(cut.is_ok() || records.counts_at != 0, "the head reads");
    (records.counts, start + records.counts_at + 16)
}

/// The same of a section that is accepted, or refused after the checks of its counts: at a record, or in the last pass.
pub fn counts_passed<T>(
    bytes: &[u8],
    cursor: usize,
    answer: &Answer<T>,
) -> Option<([u32; 4], usize)> {
    match answer {
        Err(refusal) if refusal.number < 5 || (10..16).contains(&refusal.number) => None,
        Err(refusal) if refusal.number < 10 => {
            let mut records = Records::default();
            let start = cursor + 8;
            let _ = records.read(&bytes[start..]);
            let after = start + records.counts_at + 16;
            let at_record = records.counts_at != 0 && refusal.offset >= after;
            at_record.then_some((records.counts, after))
        }
        _ => Some(counts(bytes, cursor)),
    }
}

fn clause(s: &Records, number: u8, at: usize) -> &'static str {
    match number {
        6 => match s.texts.iter().find(|t| t.1 == at) {
            Some(t) if t.1 == t.2 => "text length 0",
            _ => "text length above the limit",
        },
        7 | 8 => s.texts.iter().find(|t| t.2 == at).map_or("?", |t| t.0),
        9 => match s.witnesses.iter().any(|w| w.0 + 12 == at) {
            true => "witness",
            false => "proof",
        },
        12 => ["propositions", "proofs", "witnesses", "parents"][(at - s.counts_at) / 4],
        13 if s.schema == 2 && least(s, 84) <= s.rest => BY_92,
        16 => order(s, at),
        17..=19 => proof_clause(s, number, at),
        22 => match s.proofs.iter().map(|p| p.witness_count as u64).sum::<u64>()
            != s.counts[2] as u64
        {
            true => "witnesses unowned",
            false => "parents unowned",
        },
        23 => witness_clause(s, at),
        25 | 26 => parent_clause(s, number, (at - s.parents_at) / 4),
        _ => "",
    }
}

/// The least bytes of all records, with so many for a witness.
fn least(s: &Records, witness: usize) -> usize {
    let sizes = s.counts.iter().zip([15, 35, witness, 4]);
    sizes.map(|(count, size)| *count as usize * size).sum()
}

fn order(s: &Records, at: usize) -> &'static str {
    let index = s.propositions.iter().position(|p| p.0 == at).unwrap_or(1);
    let [(_, kind, numbers), (_, next, others)] = s.propositions[index - 1..=index] else {
        return "?";
    };
    if kind != next {
        return "kind falls";
    }
    match (0..3).find(|&i| numbers[i] != others[i]) {
        Some(i) => ["owner falls", "scope falls", "type falls"][i],
        None => "repeated",
    }
}

fn proof_clause(s: &Records, number: u8, at: usize) -> &'static str {
    let Some(index) = s.proofs.iter().position(|p| p.start == at) else {
        return "?";
    };
    let (p, before) = (&s.proofs[index], &s.proofs[..index]);
    let owned: u64 = before.iter().map(|p| p.witness_count as u64).sum();
    match number {
        17 if p.number as usize != index => "number not its place",
        17 => "no such proposition",
        18 if p.witness_first as u64 != owned => "first witness",
        18 => "first parent",
        _ if owned + p.witness_count as u64 > s.counts[2] as u64 => "witnesses past the count",
        _ => "parents past the count",
    }
}

fn witness_clause(s: &Records, at: usize) -> &'static str {
    let Some(index) = s.witnesses.iter().position(|w| w.0 == at) else {
        return "?";
    };
    let (_, [number, proposition], polarity, [start, end]) = s.witnesses[index];
    if number as usize != index {
        "number not its place"
    } else if proposition >= s.counts[0] {
        "no such proposition"
    } else if polarity > 1 {
        "polarity above 1"
    } else if start as u32 <= end as u32 {
        BY_UPPER
    } else {
        "start after end"
    }
}

fn parent_clause(s: &Records, number: u8, cell: usize) -> &'static str {
    let owns =
        |p: &&Proof| (p.parent_first..p.parent_first + p.parent_count).contains(&(cell as u32));
    let Some(proof) = s.proofs.iter().find(owns) else {
        return "?";
    };
    let parent = s.parents[cell];
    match number {
        25 if parent as usize >= s.proofs.len() => "no such parent",
        25 if parent >= proof.number => "parent not below its proof",
        25 => "parent not above the one before",
        _ if s.proofs[parent as usize].proposition != proof.proposition => "another proposition",
        _ => "another authority",
    }
}

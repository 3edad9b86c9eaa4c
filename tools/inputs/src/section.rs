//! A section as a value of fields, written by document 01's layout.

use crate::text::Text;

#[derive(Debug, Clone)]
pub struct Proposition {
    pub kind: Text,
    pub owner: u32,
    pub scope: u32,
    pub obligation: u32,
}

#[derive(Debug, Clone)]
pub struct Proof {
    pub number: u32,
    pub proposition: u32,
    pub rule: Text,
    pub authority: u32,
    pub witness_first: u32,
    pub witness_count: u32,
    pub parent_first: u32,
    pub parent_count: u32,
    pub operation: u8,
    pub zeros: [u8; 3],
}

#[derive(Debug, Clone)]
pub struct Witness {
    pub number: u32,
    pub proposition: u32,
    pub polarity: u8,
    pub zeros: [u8; 3],
    pub file: [u8; 32],
    pub start: u64,
    pub end: u64,
    pub origin: [u8; 32],
}

#[derive(Debug, Clone)]
pub struct Section {
    pub tag: [u8; 4],
    pub schema: u16,
    /// The bytes that a span's start takes, and its end: 8 under schema 2, and 4 under schema 1.
    pub span: usize,
    pub flags: u16,
    pub source_set: [u8; 32],
    pub compiler_contract: [u8; 32],
    pub epoch: u16,
    pub policy: Text,
    pub issuer: Text,
    pub propositions: Vec<Proposition>,
    pub proofs: Vec<Proof>,
    pub witnesses: Vec<Witness>,
    pub parents: Vec<u32>,
    /// The payload length and the counts that are written, where they are not the true ones.
    pub length: Option<u32>,
    pub counts: [Option<u32>; 4],
    /// How many bytes of the payload are left out at its end, and what is appended there.
    pub cut: usize,
    pub more: Vec<u8>,
}

/// A payload as it is written, with the place of each field.
struct Payload {
    bytes: Vec<u8>,
    fields: Vec<usize>,
}

impl Payload {
    fn field(&mut self, bytes: &[u8]) {
        self.fields.push(self.bytes.len());
        self.bytes.extend(bytes);
    }

    fn numbers(&mut self, numbers: &[u32]) {
        for number in numbers {
            self.field(&number.to_le_bytes());
        }
    }

    /// The length and the bytes are a field each.
    fn text(&mut self, text: &Text) {
        let length = text.length.unwrap_or(text.bytes.len() as u16);
        self.field(&length.to_le_bytes());
        self.field(&text.bytes);
    }
}

impl Section {
    pub fn bytes(&self) -> Vec<u8> {
        let mut payload = self.payload().bytes;
        payload.truncate(payload.len().saturating_sub(self.cut));
        payload.extend(&self.more);
        let length = self.length.unwrap_or(payload.len() as u32);
        let mut out = Vec::with_capacity(8 + payload.len());
        out.extend(self.tag);
        out.extend(length.to_le_bytes());
        out.extend(payload);
        out
    }

    /// The places of the payload's fields, and at last its length.
    pub fn fields(&self) -> Vec<usize> {
        let mut payload = self.payload();
        payload.fields.push(payload.bytes.len());
        payload.fields
    }

    fn payload(&self) -> Payload {
        let mut out = Payload {
            bytes: Vec::new(),
            fields: Vec::new(),
        };
        out.field(&self.schema.to_le_bytes());
        out.field(&self.flags.to_le_bytes());
        out.field(&self.source_set);
        out.field(&self.compiler_contract);
        out.field(&self.epoch.to_le_bytes());
        out.text(&self.policy);
        out.text(&self.issuer);
        let lengths = [
            self.propositions.len(),
            self.proofs.len(),
            self.witnesses.len(),
            self.parents.len(),
        ];
        for (count, length) in self.counts.iter().zip(lengths) {
            out.numbers(&[count.unwrap_or(length as u32)]);
        }
        for p in &self.propositions {
            out.text(&p.kind);
            out.numbers(&[p.owner, p.scope, p.obligation]);
        }
        for p in &self.proofs {
            out.numbers(&[p.number, p.proposition]);
            out.text(&p.rule);
            out.numbers(&[p.authority, p.witness_first, p.witness_count]);
            out.numbers(&[p.parent_first, p.parent_count]);
            out.field(&[p.operation]);
            out.field(&p.zeros);
        }
        for w in &self.witnesses {
            out.numbers(&[w.number, w.proposition]);
            out.field(&[w.polarity]);
            out.field(&w.zeros);
            out.field(&w.file);
            out.field(&w.start.to_le_bytes()[..self.span]);
            out.field(&w.end.to_le_bytes()[..self.span]);
            out.field(&w.origin);
        }
        out.numbers(&self.parents);
        out
    }
}

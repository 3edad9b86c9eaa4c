//! Valid sections of many shapes.

use crate::random::Random;
use crate::section::{Proof, Proposition, Section, Witness};
use crate::text::{Text, text, well_formed};

pub const POS: &[u8] = b"POS-WITNESS-1";
pub const NEG: &[u8] = b"NEG-WITNESS-1";
pub const JOIN: &[u8] = b"JOIN-SAME-P-1";
pub const OP: &[u8] = b"OP-T-ONLY-1";

impl Section {
    /// Document 01's specimen 1, with digests and an epoch.
    pub fn empty(r: &mut Random) -> Self {
        Section {
            tag: *b"EVR0",
            schema: 1,
            span: 4,
            flags: 0,
            source_set: r.digest(),
            compiler_contract: r.digest(),
            epoch: r.u16(),
            policy: Text::new(b"a"),
            issuer: Text::new(b"b"),
            propositions: Vec::new(),
            proofs: Vec::new(),
            witnesses: Vec::new(),
            parents: Vec::new(),
            length: None,
            counts: [None; 4],
            cut: 0,
            more: Vec::new(),
        }
    }

    /// A proof of a proposition, which owns the next witnesses and parents.
    fn prove(
        &mut self,
        rule: &[u8],
        proposition: u32,
        authority: u32,
        parents: &[u32],
    ) -> &mut Proof {
        let witness_count = (rule == POS || rule == NEG) as u32;
        self.proofs.push(Proof {
            number: self.proofs.len() as u32,
            proposition,
            rule: Text::new(rule),
            authority,
            witness_first: self.witnesses.len() as u32,
            witness_count,
            parent_first: self.parents.len() as u32,
            parent_count: parents.len() as u32,
            operation: (rule == OP) as u8,
            zeros: [0; 3],
        });
        self.parents.extend(parents);
        self.proofs.last_mut().expect("one was pushed")
    }

    /// A proof by a witness.
    pub fn witness(&mut self, r: &mut Random, proposition: u32, authority: u32, positive: bool) {
        self.prove(
            if positive { POS } else { NEG },
            proposition,
            authority,
            &[],
        );
        let start = r.u32();
        let end = if r.one_in(4) { start } else { start | r.u32() };
        self.witnesses.push(Witness {
            number: self.witnesses.len() as u32,
            proposition,
            polarity: positive as u8,
            zeros: [0; 3],
            file: r.digest(),
            start: start.into(),
            end: end.into(),
            origin: r.digest(),
        });
    }

    /// A proof on one earlier proof.
    pub fn op(&mut self, parent: u32) {
        let (proposition, authority) = self.ruling(parent);
        self.prove(OP, proposition, authority, &[parent]);
    }

    /// A proof on two earlier proofs of one ruling, the first of which has the lower number.
    pub fn join(&mut self, first: u32, second: u32) {
        let (proposition, authority) = self.ruling(first);
        self.prove(JOIN, proposition, authority, &[first, second]);
    }

    fn ruling(&self, proof: u32) -> (u32, u32) {
        let p = &self.proofs[proof as usize];
        (p.proposition, p.authority)
    }
}

pub(crate) fn proposition(kind: &[u8], numbers: [u32; 3]) -> Proposition {
    Proposition {
        kind: Text::new(kind),
        owner: numbers[0],
        scope: numbers[1],
        obligation: numbers[2],
    }
}

/// Specimen 1 with one proposition.
pub fn with_one_proposition(r: &mut Random) -> Section {
    let mut s = Section::empty(r);
    s.propositions.push(proposition(b"k", [1, 2, 3]));
    s
}

/// Specimen 3.
pub fn one_proof(r: &mut Random) -> Section {
    let mut s = with_one_proposition(r);
    s.witness(r, 0, 7, true);
    s
}

/// Specimen 4.
pub fn two_proofs(r: &mut Random) -> Section {
    let mut s = one_proof(r);
    s.op(0);
    s
}

/// A join of a positive and a negative proof, an OP on it, and a second proposition.
pub fn joined(r: &mut Random) -> Section {
    let mut s = with_one_proposition(r);
    s.propositions
        .push(proposition("k\u{e9}".as_bytes(), [0, 0, 0]));
    s.witness(r, 0, 7, true);
    s.witness(r, 0, 7, false);
    s.join(0, 1);
    s.op(2);
    s.witness(r, 1, 7, false);
    s
}

/// A section of a few records.
pub fn small(r: &mut Random) -> Section {
    let mut s = Section::empty(r);
    (s.policy, s.issuer) = (text(r), text(r));
    s.propositions = propositions(r);
    if !s.propositions.is_empty() {
        for _ in 0..r.below(12) {
            add_proof(r, &mut s);
        }
    }
    s
}

/// A section of some hundred records.
pub fn many(r: &mut Random) -> Section {
    let mut s = small(r);
    if s.propositions.is_empty() {
        s.propositions.push(proposition(b"k", [1, 2, 3]));
    }
    for _ in 0..r.within(100, 800) {
        add_proof(r, &mut s);
    }
    s
}

/// Up to six, strictly rising; kinds and numbers often repeat.
fn propositions(r: &mut Random) -> Vec<Proposition> {
    let kinds: Vec<Text> = (0..3).map(|_| text(r)).collect();
    let mut all: Vec<Proposition> = (0..r.below(7))
        .map(|_| {
            let mut kind = kinds[r.below(3)].clone();
            if r.one_in(3) {
                kind.bytes.extend(well_formed(r, 1));
            }
            let numbers = std::array::from_fn(|_| {
                let any = r.u32();
                r.pick(&[0, 1, 255, 256, u32::MAX, any])
            });
            proposition(&kind.bytes, numbers)
        })
        .collect();
    all.sort_by(|a, b| order(a).cmp(&order(b)));
    all.dedup_by(|a, b| order(a) == order(b));
    all
}

pub fn order(p: &Proposition) -> (&[u8], u32, u32, u32) {
    (&p.kind.bytes, p.owner, p.scope, p.obligation)
}

/// One more proof, on earlier ones of the same ruling where there are some.
fn add_proof(r: &mut Random, s: &mut Section) {
    let proposition = r.below(s.propositions.len()) as u32;
    let authority = r.pick(&[7, 7, 8, u32::MAX]);
    let earlier: Vec<u32> = (0..s.proofs.len() as u32)
        .filter(|&p| s.ruling(p) == (proposition, authority))
        .collect();
    match earlier[..] {
        [] => s.witness(r, proposition, authority, true),
        _ if r.one_in(3) => {
            let positive = r.one_in(2);
            s.witness(r, proposition, authority, positive);
        }
        [_, _, ..] if r.one_in(2) => {
            let second = r.within(1, earlier.len() - 1);
            let first = r.below(second);
            s.join(earlier[first], earlier[second]);
        }
        _ => s.op(r.pick(&earlier)),
    }
}

/// A witness and OPs, each on the one before: the last has depth `proofs`.
pub fn chain(r: &mut Random, proofs: u32) -> Section {
    let mut s = with_one_proposition(r);
    s.witness(r, 0, 7, true);
    for parent in 0..proofs - 1 {
        s.op(parent);
    }
    s
}

/// Joins in layers of `width` over as many witnesses: the ways down double at each layer.
pub fn layers(r: &mut Random, layers: u32, width: u32) -> Section {
    let mut s = with_one_proposition(r);
    for number in 0..width {
        s.witness(r, 0, 7, number % 2 == 0);
    }
    for layer in 1..layers {
        let below = (layer - 1) * width;
        for number in 0..width {
            let (one, other) = (below + number, below + (number + 1) % width);
            s.join(one.min(other), one.max(other));
        }
    }
    s
}

/// Witness proofs and OPs by turns, each OP on the witness proof before it.
pub fn witnesses_and_ops(r: &mut Random, proofs: u32) -> Section {
    let mut s = with_one_proposition(r);
    for number in 0..proofs {
        if number % 2 == 0 {
            s.witness(r, 0, 7, true);
        } else {
            s.op(number - 1);
        }
    }
    s
}

/// OPs, all on one witness proof.
pub fn ops_on_one(r: &mut Random, proofs: u32) -> Section {
    let mut s = with_one_proposition(r);
    s.witness(r, 0, 7, true);
    for _ in 1..proofs {
        s.op(0);
    }
    s
}

/// Propositions alone, whose kinds have `kind` bytes.
pub fn many_propositions(r: &mut Random, count: u32, kind: usize) -> Section {
    let mut s = Section::empty(r);
    let name = vec![b'k'; kind];
    s.propositions = (0..count)
        .map(|n| proposition(&name, [n / 256, n % 256, 0]))
        .collect();
    s
}

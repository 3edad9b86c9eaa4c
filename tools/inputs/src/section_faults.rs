//! Faults of sections, one for each condition of document 01. A fault that needs a record does nothing where there is none.

use crate::random::Random;
use crate::section::{Proof, Proposition, Section, Witness};
use crate::shapes::{JOIN, NEG, OP, POS, order};
use crate::text::{CONTROLS, ILL_FORMED, Text, encoded, put, text, well_formed};

pub type Fault = fn(&mut Section, &mut Random);

pub const FAULTS: [Fault; 40] = [
    tag,
    length,
    cut,
    cut_in_field,
    cut_in_field,
    cut_in_field,
    cut_in_field,
    cut_in_field,
    cut_in_field,
    text_length,
    text_ill_formed,
    text_control,
    text_past_end,
    schema_or_flags,
    span_width,
    count_above_limit,
    count_off,
    proposition_order,
    proposition_repeated,
    proof_number,
    proof_proposition,
    proof_first,
    proof_count,
    proof_wide_range,
    rule_name,
    rule_other,
    operation,
    proof_zeros,
    witness_field,
    witness_zeros,
    witness_of_other,
    polarity,
    unowned,
    left_over,
    parent_number,
    parent_number,
    parent_order,
    other_ruling,
    other_ruling,
    deep,
];

/// A section with one fault, often with a second one.
pub fn damaged(r: &mut Random, mut s: Section) -> Section {
    let faults = if r.one_in(3) { 2 } else { 1 };
    for _ in 0..faults {
        r.pick(&FAULTS)(&mut s, r);
    }
    s
}

/// Some change of some bytes, anywhere.
pub fn scrambled(r: &mut Random, mut bytes: Vec<u8>) -> Vec<u8> {
    for _ in 0..r.within(1, 3) {
        let at = r.below(bytes.len() + 1);
        match r.below(4) {
            0 if at < bytes.len() => bytes[at] = r.byte(),
            1 if at < bytes.len() => bytes[at] ^= 1 << r.below(8),
            2 => bytes.truncate(at),
            _ => bytes.insert(at, r.byte()),
        }
    }
    bytes
}

fn any_proposition<'a>(s: &'a mut Section, r: &mut Random) -> Option<&'a mut Proposition> {
    let count = s.propositions.len();
    (count > 0).then(|| &mut s.propositions[r.below(count)])
}

fn any_proof<'a>(s: &'a mut Section, r: &mut Random) -> Option<&'a mut Proof> {
    let count = s.proofs.len();
    (count > 0).then(|| &mut s.proofs[r.below(count)])
}

fn any_witness<'a>(s: &'a mut Section, r: &mut Random) -> Option<&'a mut Witness> {
    let count = s.witnesses.len();
    (count > 0).then(|| &mut s.witnesses[r.below(count)])
}

fn any_text<'a>(s: &'a mut Section, r: &mut Random) -> &'a mut Text {
    let (propositions, proofs) = (s.propositions.len(), s.proofs.len());
    match r.below(4) {
        0 => &mut s.policy,
        1 => &mut s.issuer,
        2 if propositions > 0 => &mut s.propositions[r.below(propositions)].kind,
        _ if proofs > 0 => &mut s.proofs[r.below(proofs)].rule,
        _ => &mut s.policy,
    }
}

/// Another number: one more, one less, or a far one.
fn other(r: &mut Random, number: u32) -> u32 {
    let any = r.u32();
    r.pick(&[
        number.wrapping_add(1),
        number.wrapping_sub(1),
        number ^ 0x100,
        u32::MAX,
        any,
    ])
}

fn nonzero(r: &mut Random) -> [u8; 3] {
    let mut zeros = [0; 3];
    zeros[r.below(3)] = r.within(1, 255) as u8;
    zeros
}

/// Before anything is cut or appended.
fn payload_length(s: &Section) -> usize {
    s.fields().last().copied().unwrap_or(0)
}

fn tag(s: &mut Section, r: &mut Random) {
    s.tag[r.below(4)] ^= 1 << r.below(8);
}

fn length(s: &mut Section, r: &mut Random) {
    let true_length = payload_length(s) as u32;
    let below = r.below(true_length as usize + 1) as u32;
    s.length = Some(r.pick(&[
        0,
        4_194_305,
        u32::MAX,
        4_194_304,
        true_length + 1,
        true_length - 1,
        below,
    ]));
}

fn cut(s: &mut Section, r: &mut Random) {
    s.cut = r.below(payload_length(s));
}

/// The end inside a field. A long kind makes up for what is cut, so that 13 does not apply.
fn cut_in_field(s: &mut Section, r: &mut Random) {
    let filler = payload_length(s).min(1500);
    if let Some(p) = any_proposition(s, r) {
        p.kind.bytes.extend(well_formed(r, filler));
        s.propositions.sort_by(|a, b| order(a).cmp(&order(b)));
    }
    let fields = s.fields();
    let count = fields.len() - 1;
    let field = if r.one_in(3) {
        r.below(13)
    } else {
        r.below(count)
    };
    let width = fields[field + 1] - fields[field];
    let end = fields[field] + r.below(width.max(1));
    s.cut = fields[count] - end;
}

fn text_length(s: &mut Section, r: &mut Random) {
    let text = any_text(s, r);
    if r.one_in(3) {
        let length = r.pick(&[4095, 4096, 4097]);
        text.bytes.resize(length, b'x');
    } else {
        text.length = Some(r.pick(&[0, 4097, 65535]));
    }
}

fn text_ill_formed(s: &mut Section, r: &mut Random) {
    let bytes = r.pick(&ILL_FORMED);
    let text = any_text(s, r);
    put(r, text, bytes);
    if r.one_in(4) {
        let control = encoded(r.pick(&CONTROLS));
        let text = any_text(s, r);
        put(r, text, &control);
    }
}

fn text_control(s: &mut Section, r: &mut Random) {
    let control = encoded(r.pick(&CONTROLS));
    let text = any_text(s, r);
    if r.one_in(2) {
        text.bytes.extend(control);
    } else {
        text.bytes.splice(0..0, control);
    }
}

fn text_past_end(s: &mut Section, r: &mut Random) {
    any_text(s, r).length = Some(r.within(1, 4096) as u16);
}

fn schema_or_flags(s: &mut Section, r: &mut Random) {
    let any = r.u16();
    if r.one_in(2) {
        s.schema = r.pick(&[0, 1, 2, 3, 256, 258, 513, any]);
    } else {
        s.flags = r.pick(&[1, 256, any]);
    }
}

/// Spans as the other schema has them.
fn span_width(s: &mut Section, _: &mut Random) {
    s.span = 12 - s.span;
}

fn count_above_limit(s: &mut Section, r: &mut Random) {
    for (count, limit) in s.counts.iter_mut().zip([65_536, 65_536, 262_144, 262_144]) {
        if r.one_in(3) {
            *count = Some(r.pick(&[limit, limit + 1, u32::MAX]));
        }
    }
}

fn count_off(s: &mut Section, r: &mut Random) {
    let lengths = [
        s.propositions.len(),
        s.proofs.len(),
        s.witnesses.len(),
        s.parents.len(),
    ];
    let table = r.below(4);
    let length = lengths[table] as u32;
    s.counts[table] = Some(r.pick(&[length + 1, length.saturating_sub(1), 0, length + 2]));
}

fn proposition_order(s: &mut Section, r: &mut Random) {
    let count = s.propositions.len();
    if count > 1 {
        s.propositions.swap(r.below(count), r.below(count));
    }
}

/// Equal to the one before, or lower in one number.
fn proposition_repeated(s: &mut Section, r: &mut Random) {
    let count = s.propositions.len();
    if count == 0 {
        return;
    }
    let at = r.below(count);
    let mut copy = s.propositions[at].clone();
    match r.below(4) {
        0 => copy.owner = copy.owner.wrapping_sub(1),
        1 => copy.scope = copy.scope.wrapping_sub(1),
        2 => copy.obligation = copy.obligation.wrapping_sub(1),
        _ => (),
    }
    s.propositions.insert(at + 1, copy);
}

fn proof_number(s: &mut Section, r: &mut Random) {
    if let Some(p) = any_proof(s, r) {
        p.number = other(r, p.number);
    }
}

fn proof_proposition(s: &mut Section, r: &mut Random) {
    let count = s.propositions.len() as u32;
    if let Some(p) = any_proof(s, r) {
        p.proposition = r.pick(&[count, count + 1, u32::MAX, p.proposition ^ 1]);
    }
}

fn proof_first(s: &mut Section, r: &mut Random) {
    if let Some(p) = any_proof(s, r) {
        if r.one_in(2) {
            p.witness_first = other(r, p.witness_first);
        } else {
            p.parent_first = other(r, p.parent_first);
        }
    }
}

fn proof_count(s: &mut Section, r: &mut Random) {
    if let Some(p) = any_proof(s, r) {
        if r.one_in(2) {
            p.witness_count = other(r, p.witness_count);
        } else {
            p.parent_count = other(r, p.parent_count);
        }
    }
}

/// Sums past 32 bits, in the last proof.
fn proof_wide_range(s: &mut Section, r: &mut Random) {
    if let Some(p) = s.proofs.last_mut() {
        if r.one_in(2) {
            p.witness_count = u32::MAX - r.below(3) as u32;
        } else {
            p.parent_count = u32::MAX - r.below(3) as u32;
        }
    }
}

fn rule_name(s: &mut Section, r: &mut Random) {
    if let Some(p) = any_proof(s, r) {
        let at = r.below(p.rule.bytes.len());
        match r.below(4) {
            0 => p.rule.bytes[at] ^= 1,
            1 => p.rule.bytes.truncate(at.max(1)),
            2 => p.rule.bytes.push(b'1'),
            _ => p.rule = text(r),
        }
    }
}

/// A known rule whose numbers may differ.
fn rule_other(s: &mut Section, r: &mut Random) {
    if let Some(p) = any_proof(s, r) {
        p.rule = Text::new(r.pick(&[POS, NEG, JOIN, OP]));
    }
}

fn operation(s: &mut Section, r: &mut Random) {
    if let Some(p) = any_proof(s, r) {
        p.operation = r.pick(&[0, 1, 2, 255]);
    }
}

fn proof_zeros(s: &mut Section, r: &mut Random) {
    if let Some(p) = any_proof(s, r) {
        p.zeros = nonzero(r);
    }
}

fn witness_zeros(s: &mut Section, r: &mut Random) {
    if let Some(w) = any_witness(s, r) {
        w.zeros = nonzero(r);
    }
}

fn witness_field(s: &mut Section, r: &mut Random) {
    let count = s.propositions.len() as u32;
    let forms = if s.span == 8 { 5 } else { 4 };
    if let Some(w) = any_witness(s, r) {
        match r.below(forms) {
            0 => w.number = other(r, w.number),
            1 => w.proposition = r.pick(&[count, count + 1, u32::MAX]),
            2 => w.polarity = r.pick(&[2, 3, 128, 255]),
            3 => (w.start, w.end) = (w.end.max(1), w.end.max(1) - 1),
            _ => (w.start, w.end) = upper_halves_fall(r),
        }
    }
}

/// A start after its end, whose lower half is below the end's, or is the same.
fn upper_halves_fall(r: &mut Random) -> (u64, u64) {
    let upper = u64::from(r.u32()).max(1);
    let (lower, more) = (u64::from(r.u32() >> 1), u64::from(r.u32() >> 1));
    let end = (upper - 1) << 32 | (lower + more * r.below(2) as u64);
    (upper << 32 | lower, end)
}

fn witness_of_other(s: &mut Section, r: &mut Random) {
    let count = s.propositions.len();
    if let Some(w) = any_witness(s, r) {
        w.proposition = r.below(count) as u32;
    }
}

fn polarity(s: &mut Section, r: &mut Random) {
    if let Some(w) = any_witness(s, r) {
        w.polarity ^= 1;
    }
}

fn unowned(s: &mut Section, r: &mut Random) {
    if r.one_in(2) {
        s.parents.push(r.below(s.proofs.len() + 1) as u32);
    } else if let Some(w) = s.witnesses.last().cloned() {
        s.witnesses.push(w);
    }
}

fn left_over(s: &mut Section, r: &mut Random) {
    s.more = (0..r.within(1, 9)).map(|_| r.byte()).collect();
}

/// A proof with parents, by its place.
fn any_with_parents(s: &Section, r: &mut Random) -> Option<usize> {
    let all: Vec<usize> = (0..s.proofs.len())
        .filter(|&p| s.proofs[p].parent_count > 0)
        .collect();
    (!all.is_empty()).then(|| r.pick(&all))
}

fn parent_number(s: &mut Section, r: &mut Random) {
    let Some(proof) = any_with_parents(s, r) else {
        return;
    };
    let first = s.proofs[proof].parent_first as usize;
    let own = proof as u32;
    let far = r.below(s.proofs.len() + 1) as u32;
    let any = r.u32();
    let number = r.pick(&[own, own + 1, own.saturating_sub(1), far, u32::MAX, any]);
    if let Some(cell) = s.parents.get_mut(first + r.below(2)) {
        *cell = number;
    }
}

/// A join's parents equal, or the higher first.
fn parent_order(s: &mut Section, r: &mut Random) {
    let joins: Vec<usize> = s
        .proofs
        .iter()
        .filter(|p| p.parent_count == 2)
        .map(|p| p.parent_first as usize)
        .collect();
    if joins.is_empty() {
        return;
    }
    let first = r.pick(&joins);
    if let Some(cells) = s.parents.get_mut(first..first + 2) {
        match r.below(3) {
            0 => cells[0] = cells[1],
            1 => cells[1] = cells[0],
            _ => cells.swap(0, 1),
        }
    }
}

/// Another proposition or authority of a proof that has parents, or that may be one.
fn other_ruling(s: &mut Section, r: &mut Random) {
    let count = s.propositions.len().max(1);
    let proof = match any_with_parents(s, r) {
        Some(proof) if r.one_in(2) => Some(&mut s.proofs[proof]),
        _ => any_proof(s, r),
    };
    if let Some(p) = proof {
        if r.one_in(3) {
            p.authority = other(r, p.authority);
        } else {
            p.proposition = r.below(count) as u32;
        }
    }
}

/// OPs on the last proof until a depth near the limit is passed or not.
fn deep(s: &mut Section, r: &mut Random) {
    if r.one_in(2) && !s.proofs.is_empty() {
        for _ in 0..r.within(245, 260) {
            s.op(s.proofs.len() as u32 - 1);
        }
    }
}

//! Sections of schema 2, and the twins that a section has under both schemas.

use crate::random::Random;
use crate::section::{Section, Witness};

/// The section under schema 2. Its spans stay, or get upper halves: the same for start and end, or rising ones.
pub fn wide(r: &mut Random, mut section: Section) -> Section {
    section.schema = 2;
    section.span = 8;
    for witness in &mut section.witnesses {
        lengthen(r, witness);
    }
    section
}

fn lengthen(r: &mut Random, w: &mut Witness) {
    let upper = u64::from(r.u32()) << 32;
    match r.below(4) {
        0 => (),
        1 => (w.start, w.end) = (w.start | upper, w.end | upper),
        2 => {
            // the lower half of the start is above the end's, or is the same
            let above = upper.saturating_add(1 << 32);
            (w.start, w.end) = (w.end | upper, w.start | above);
        }
        _ => w.end = r.pick(&[1 << 32, u64::MAX - 1, u64::MAX]),
    }
}

/// The section under schema 2, with the same spans, where it has schema 1 and each of its records stands where its counts and lengths say.
pub fn twin(section: &Section) -> Option<Section> {
    let propositions = section.propositions.iter().map(|p| &p.kind);
    let rules = section.proofs.iter().map(|p| &p.rule);
    let mut texts = propositions
        .chain(rules)
        .chain([&section.policy, &section.issuer]);
    let stands = section.cut == 0
        && section.length.is_none()
        && section.counts == [None; 4]
        && texts.all(|text| text.length.is_none());
    let is_of_1 = section.schema == 1 && section.span == 4;
    (stands && is_of_1).then(|| Section {
        schema: 2,
        span: 8,
        ..section.clone()
    })
}

/// Where a place of the payload of a section of schema 1 stands in its twin's: the start of a record or of a field, or the end of one.
pub fn place_in_twin(section: &Section, place: usize) -> usize {
    let witnesses = section.witnesses.len();
    let after = 4 * section.parents.len() + section.more.len();
    let first = section.bytes().len() - 8 - after - 84 * witnesses;
    let Some(inside) = place.checked_sub(first) else {
        return place;
    };
    let (number, field) = (inside / 84, inside % 84);
    if number >= witnesses {
        return place + 8 * witnesses;
    }
    let longer = match field {
        0..=44 => 0,
        45..=48 => 4,
        _ => 8,
    };
    place + 8 * number + longer
}

//! The marks of a section's proofs and what they authorise, which the Rust does not have, in plain lines from the words of document 02's Slips
//! 5 and 6.

use crate::records::DecodedEvr0;

/// Where walks down from a proof end: whether one does at a positive witness, and whether one does at a negative one.
#[derive(Clone, Copy, Default)]
struct Ends {
    positive: bool,
    negative: bool,
}

/// The mark of each proof: 1 if every walk down, by any parents until none is left, ends at a positive witness, 2 if every such walk ends at a
/// negative one, 3 otherwise. The ends of a proof are looked for once.
pub fn marks(section: &DecodedEvr0) -> Vec<u8> {
    let mut known = vec![None; section.proofs.len()];
    let ends = (0..section.proofs.len()).map(|proof| ends(section, proof, &mut known));
    ends.map(mark).collect()
}

fn mark(ends: Ends) -> u8 {
    match (ends.positive, ends.negative) {
        (true, false) => 1,
        (false, true) => 2,
        _ => 3,
    }
}

fn ends(section: &DecodedEvr0, proof: usize, known: &mut [Option<Ends>]) -> Ends {
    if let Some(found) = known[proof] {
        return found;
    }
    let mut found = Ends::default();
    let parents = parents(section, proof);
    if parents.is_empty() {
        found.positive = polarity(section, proof) == 1;
        found.negative = polarity(section, proof) == 0;
    }
    for parent in parents {
        let below = ends(section, *parent as usize, known);
        found.positive |= below.positive;
        found.negative |= below.negative;
    }
    known[proof] = Some(found);
    found
}

fn parents(section: &DecodedEvr0, proof: usize) -> &[u32] {
    let proof = &section.proofs[proof];
    let first = proof.parent_first as usize;
    &section.parents[first..first + proof.parent_count as usize]
}

/// The polarity of a proof's witness.
fn polarity(section: &DecodedEvr0, proof: usize) -> u8 {
    let witness = section.proofs[proof].witness_first;
    section.witnesses[witness as usize].polarity
}

/// The same by making every walk, for a section that has few.
pub fn marks_by_walks(section: &DecodedEvr0) -> Vec<u8> {
    let proofs = 0..section.proofs.len();
    proofs
        .map(|proof| {
            let mut at_ends = Vec::new();
            walk(section, proof, &mut at_ends);
            if at_ends.iter().all(|polarity| *polarity == 1) {
                1
            } else if at_ends.iter().all(|polarity| *polarity == 0) {
                2
            } else {
                3
            }
        })
        .collect()
}

/// The polarity at the end of each walk down from a proof.
fn walk(section: &DecodedEvr0, proof: usize, at_ends: &mut Vec<u8>) {
    let parents = parents(section, proof);
    if parents.is_empty() {
        at_ends.push(polarity(section, proof));
    }
    for parent in parents {
        walk(section, *parent as usize, at_ends);
    }
}

/// A proposition is authorised when some proof of it has operation 1 and mark 1.
pub fn authorised(section: &DecodedEvr0, marks: &[u8], proposition: u32) -> bool {
    let mut proofs = section.proofs.iter().zip(marks);
    proofs.any(|(proof, mark)| {
        let of_it = proof.proposition_index == proposition;
        of_it && proof.authorized_operation == 1 && *mark == 1
    })
}

/// Whether a table of so many bytes is refused, with 61.
pub fn is_short(room: usize, proofs: usize) -> bool {
    room < proofs
}

/// A lent table of so many bytes after a call: the marks and zeros past them; no mark after a refusal.
pub fn lent(marks: &[u8], room: usize) -> Vec<u8> {
    let mut table = marks.to_vec();
    table.resize(room, 0);
    table
}

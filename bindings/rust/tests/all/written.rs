//! Sections, written from their records.

pub struct Proof {
    pub proposition: u32,
    pub rule: &'static str,
    pub authority: u32,
    pub witness: Option<u8>,
    pub parents: Vec<u32>,
}

/// A section with policy "a" and issuer "b", and one proposition "k" where there are proofs.
pub fn section(proofs: &[Proof]) -> Vec<u8> {
    section_of(1, [5, 6], proofs)
}

/// The same under a schema, with this span for each witness: 8 bytes each for its start and its end under schema 2, else 4.
pub fn section_of(schema: u16, span: [u64; 2], proofs: &[Proof]) -> Vec<u8> {
    let witnesses: Vec<(u32, u8)> = proofs
        .iter()
        .filter_map(|proof| Some((proof.proposition, proof.witness?)))
        .collect();
    let parents: Vec<u32> = proofs
        .iter()
        .flat_map(|proof| proof.parents.clone())
        .collect();
    let propositions = u32::from(!proofs.is_empty());

    let mut payload = schema.to_le_bytes().to_vec();
    payload.extend([0; 2]);
    payload.extend([7; 32]);
    payload.extend([8; 32]);
    payload.extend(9u16.to_le_bytes());
    text(&mut payload, "a");
    text(&mut payload, "b");
    let counts = [proofs.len(), witnesses.len(), parents.len()].map(|count| count as u32);
    numbers(&mut payload, &[propositions]);
    numbers(&mut payload, &counts);
    if propositions == 1 {
        text(&mut payload, "k");
        numbers(&mut payload, &[1, 2, 3]);
    }
    let (mut witness_first, mut parent_first) = (0, 0);
    for (number, proof) in (0..).zip(proofs) {
        let witness_count = u32::from(proof.witness.is_some());
        let parent_count = proof.parents.len() as u32;
        numbers(&mut payload, &[number, proof.proposition]);
        text(&mut payload, proof.rule);
        numbers(&mut payload, &[proof.authority]);
        numbers(&mut payload, &[witness_first, witness_count]);
        numbers(&mut payload, &[parent_first, parent_count]);
        payload.extend([u8::from(proof.rule == "OP-T-ONLY-1"), 0, 0, 0]);
        witness_first += witness_count;
        parent_first += parent_count;
    }
    for (number, (proposition, polarity)) in (0..).zip(witnesses) {
        numbers(&mut payload, &[number, proposition]);
        payload.extend([polarity, 0, 0, 0]);
        payload.extend([4; 32]);
        for place in span {
            let width = if schema == 2 { 8 } else { 4 };
            payload.extend(&place.to_le_bytes()[..width]);
        }
        payload.extend([7; 32]);
    }
    numbers(&mut payload, &parents);
    framed(&payload)
}

/// Tag, length and payload.
pub fn framed(payload: &[u8]) -> Vec<u8> {
    let mut file = b"EVR0".to_vec();
    numbers(&mut file, &[payload.len() as u32]);
    file.extend(payload);
    file
}

fn numbers(out: &mut Vec<u8>, all: &[u32]) {
    out.extend(all.iter().flat_map(|number| number.to_le_bytes()));
}

fn text(out: &mut Vec<u8>, text: &str) {
    out.extend((text.len() as u16).to_le_bytes());
    out.extend(text.as_bytes());
}

/// A POS proof on a witness of this polarity.
pub fn witnessed(polarity: u8) -> Proof {
    Proof {
        proposition: 0,
        rule: "POS-WITNESS-1",
        authority: 7,
        witness: Some(polarity),
        parents: vec![],
    }
}

/// An OP proof on another.
pub fn op(parent: u32) -> Proof {
    Proof {
        proposition: 0,
        rule: "OP-T-ONLY-1",
        authority: 7,
        witness: None,
        parents: vec![parent],
    }
}

/// A POS proof and so many OP proofs, each on the one before.
pub fn chain(proofs: u32) -> Vec<u8> {
    let ops = (0..proofs - 1).map(op);
    let all: Vec<Proof> = std::iter::once(witnessed(1)).chain(ops).collect();
    section(&all)
}

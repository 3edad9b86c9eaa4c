//! Depth by rounds, which the Rust does not have, in plain lines from the words of document 02's Slip 14, over a section whose tables read: of such
//! a section it reads what document 01's layout has, and checks nothing.

/// The start of each proposition and of each proof in the payload, what rounds ask of each proof, and the place after the section.
pub struct Records {
    pub propositions: Vec<u64>,
    pub proofs: Vec<u64>,
    kin: Vec<Kin>,
    payload: usize,
    pub end: usize,
}

/// Of a proof: its proposition, its authority, and each parent cell as its place in the file and the number in it.
struct Kin {
    proposition: u32,
    authority: u32,
    parents: Vec<(usize, usize)>,
}

fn number(bytes: &[u8], at: usize) -> u32 {
    u32::from_le_bytes(bytes[at..at + 4].try_into().expect("4 bytes"))
}

fn short(bytes: &[u8], at: usize) -> usize {
    bytes[at] as usize + 256 * bytes[at + 1] as usize
}

pub fn records(file: &[u8], cursor: usize) -> Records {
    let payload = cursor + 8;
    let end = payload + number(file, cursor + 4) as usize;
    let p = &file[payload..end];
    let witness = if short(p, 0) == 2 { 92 } else { 84 };
    let issuer = 70 + 2 + short(p, 70);
    let counts = issuer + 2 + short(p, issuer);
    let count = |index: usize| number(p, counts + 4 * index) as usize;
    let mut at = counts + 16;
    let mut propositions = Vec::new();
    for _ in 0..count(0) {
        propositions.push(at as u64);
        at += 2 + short(p, at) + 12;
    }
    let mut proofs = Vec::new();
    for _ in 0..count(1) {
        proofs.push(at as u64);
        at += 8 + 2 + short(p, at + 8) + 24;
    }
    let cells = at + witness * count(2);
    let kin = proofs.iter().map(|&start| {
        let start = start as usize;
        let rest = start + 10 + short(p, start + 8);
        let first = number(p, rest + 12) as usize;
        let owned = first..first + number(p, rest + 16) as usize;
        let cell = |c: usize| (payload + cells + 4 * c, number(p, cells + 4 * c) as usize);
        Kin {
            proposition: number(p, start + 4),
            authority: number(p, rest),
            parents: owned.map(cell).collect(),
        }
    });
    Records {
        kin: kin.collect(),
        propositions,
        proofs,
        payload,
        end,
    }
}

/// 25 and 26 of the parents of one proof, with their place.
fn kin_of(records: &Records, proof: usize) -> Option<(u8, usize)> {
    let own = &records.kin[proof];
    let mut before = None;
    for &(place, parent) in &own.parents {
        if parent >= proof || before.is_some_and(|before| parent <= before) {
            return Some((25, place));
        }
        let other = &records.kin[parent];
        if other.proposition != own.proposition || other.authority != own.authority {
            return Some((26, place));
        }
        before = Some(parent);
    }
    None
}

/// Whether the cell after this one is the same proof's, and 25 there too.
pub fn is_before_25(records: &Records, place: usize) -> bool {
    let mut proofs = records.kin.iter().enumerate();
    proofs.any(|(proof, own)| match own.parents[..] {
        [(first, a), (_, b)] => first == place && (b >= proof || b <= a),
        _ => false,
    })
}

/// In each round, counted from 1, it marks the proofs all of whose parents were marked in earlier rounds. Refused as the decoder would without 27 to
/// 29, then with 27 where a proof is unmarked after 256 rounds.
pub fn rounds(records: &Records) -> Result<Vec<u64>, (u8, usize)> {
    let proofs = 0..records.kin.len();
    if let Some(refused) = proofs.clone().find_map(|proof| kin_of(records, proof)) {
        return Err(refused);
    }
    let mut marks = vec![0; records.kin.len()];
    for round in 1..=256 {
        let earlier = marks.clone();
        for proof in proofs.clone().filter(|proof| earlier[*proof] == 0) {
            let mut parents = records.kin[proof].parents.iter();
            if parents.all(|(_, parent)| earlier[*parent] != 0) {
                marks[proof] = round;
            }
        }
        if marks == earlier {
            break;
        }
    }
    match marks.contains(&0) {
        true => Err((27, records.payload)),
        false => Ok(marks),
    }
}

/// Whether a table of so many entries is refused, with 61.
pub fn is_short(room: usize, proofs: usize) -> bool {
    room < proofs
}

/// A lent table of so many entries after a call: the numbers and zeros past them; none after a refusal.
pub fn lent(numbers: &[u64], room: usize) -> Vec<u64> {
    let mut table = numbers.to_vec();
    table.resize(room, 0);
    table
}

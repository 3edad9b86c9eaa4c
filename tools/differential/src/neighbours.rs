//! Pairs of files that hold the same section at one cursor, whole in both, with other bytes before the cursor and behind the payload, and of
//! other lengths: the port answers both alike, with the same tables and the same records. Half are of schema 2. The Rust is not asked.

use crate::section_compare::{call_marked, rooms, what};
use crate::tally::Tally;
use falgnust::evr0;
use inputs::cases::{self, AS_IT_IS, Form, SectionCase};
use inputs::random::Random;
use inputs::wide::wide;

/// One pair for so many of the count.
const SHARE: usize = 5;

pub fn run(r: &mut Random, count: usize) -> Tally {
    let mut tally = Tally::alone("neighbours", &[]);
    while tally.inputs() < (count / SHARE) as u64 {
        let form: Form = if r.one_in(2) { wide } else { AS_IT_IS };
        let case = if r.one_in(400) {
            cases::large_section_in(r, form)
        } else {
            cases::section_in(r, form)
        };
        if let Some(section) = whole(&case) {
            pair(&mut tally, r, section);
        }
    }
    tally
}

/// The bytes from the cursor to the payload end, whatever tag stands there; none where the payload is cut.
fn whole(case: &SectionCase) -> Option<&[u8]> {
    let section = case.file.get(case.cursor..)?;
    let length = section.get(4..8)?.try_into().expect("four bytes");
    section.get(..8 + u32::from_le_bytes(length) as usize)
}

fn pair(tally: &mut Tally, r: &mut Random, section: &[u8]) {
    let cursor = r.below(40);
    let [one, other] = [(); 2].map(|()| neighboured(r, section, cursor));
    let mut room = rooms(&one);
    let mut marks = room[2];
    if r.one_in(4) {
        let short = r.below(3);
        match r.below(4) {
            3 => marks = short,
            table => room[table] = short,
        }
    }
    let called = call_marked(&one, room, marks);
    let number = called.0.0.map_or_else(|refusal| refusal.number, |_| 0);
    tally.input((number, ""));
    tally.same(&called, &call_marked(&other, room, marks), || {
        format!(
            "room {room:?}, marks {marks}, {}, beside {}",
            what(&one),
            what(&other)
        )
    });
    tally.same(&records(&one), &records(&other), || {
        format!("the binding, {}, beside {}", what(&one), what(&other))
    });
}

/// The section at this cursor of a file of its own.
fn neighboured(r: &mut Random, section: &[u8], cursor: usize) -> SectionCase {
    let mut file: Vec<u8> = (0..cursor).map(|_| r.byte()).collect();
    file.extend(section);
    let more = r.below(60);
    file.extend((0..more).map(|_| r.byte()));
    SectionCase { file, cursor }
}

/// Every record as the crate that callers link reads it, or its error, with the cursor.
fn records(case: &SectionCase) -> (Result<evr0::DecodedEvr0, evr0::Evr0Error>, usize) {
    let mut cursor = case.cursor;
    let decoded = evr0::decode_evr0_section(&case.file, &mut cursor);
    (decoded, cursor)
}

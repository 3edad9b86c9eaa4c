//! Locks with owners, which the Rust does not have: held to plain lines over the Rust's paths (tools/oracle/plain/locks.rs). All pairs of short
//! paths, sequences of three owners under one, two and many source sets, registers near 256 with 66, 67 and 68 in every pair, registers of any words, and large blocks.

use crate::lock_compare::{Claim, Sides};
use crate::tally::{Outcome, Tally};
use answers::block::Block;
use answers::locks::{Lock, Source};
use inputs::block::Path;
use inputs::cases::BlockCase;
use inputs::locks::{
    Step, all_paths, any_claim, any_words, beside_a_crowd, block, case, crowd, owners, sets, step,
};
use inputs::random::Random;
use oracle::locks as plain;

/// One sequence, one crowded register and one register of any words for so many of the count.
const SHARE: usize = 50;

/// A set like any other.
const SET: Source = [0; 32];

/// How many steps a sequence has.
const STEPS: usize = 24;

const REACHABLE: [Outcome; 38] = [
    (0, "a pair of paths"),
    (67, "a pair of paths"),
    (0, "a pair of paths, of sets that differ in one bit"),
    (0, "no path"),
    (0, "no path, and 256 are held"),
    (0, "a borrow beside one that it touches"),
    (0, "touching what the owner holds"),
    (0, "touching all but the source set of another's"),
    (0, "touching nothing"),
    (66, "alone"),
    (66, "before 67"),
    (66, "before 68"),
    (66, "before 67 and 68"),
    (67, "alone"),
    (67, "before 68"),
    (68, "alone"),
    (0, "the last of 256"),
    (61, "strings"),
    (61, "paths"),
    (61, "families"),
    (61, "before 66"),
    (61, "before 67"),
    (61, "before 68"),
    (71, "before 66"),
    (71, "before 67"),
    (71, "before 68"),
    (34, "the block"),
    (59, "the block"),
    (71, "the block"),
    (0, "release"),
    (0, "release, and nothing is held by it"),
    (0, "release of any words"),
    (0, "releases by two owners in either order"),
    (0, "any words"),
    (0, "any words, no path"),
    (66, "any words"),
    (67, "any words"),
    (68, "any words"),
];

pub fn run(r: &mut Random, count: usize) -> Tally {
    let mut tally = Tally::alone("locks", &REACHABLE);
    pairs(&mut tally, r);
    large(&mut tally, r);
    for _ in 0..count / SHARE {
        sequence(&mut tally, r);
        crowded(&mut tally, r);
        of_any_words(&mut tally, r);
    }
    tally
}

/// Each two paths of at most three of six components and two roots, held by one owner and claimed by another.
fn pairs(tally: &mut Tally, r: &mut Random) {
    let alone = |r: &mut Random, path: Path| {
        let block = block(r, 22, vec![path]);
        case(r, &block)
    };
    let cases: Vec<BlockCase> = all_paths(r, 3)
        .into_iter()
        .map(|path| alone(r, path))
        .collect();
    let blocks: Vec<Block> = cases.iter().map(accepted).collect();
    for held in &cases {
        let mut register = Sides {
            binding: None,
            ..Sides::empty()
        };
        register.claim(tally, Claim::new(7, &SET, held), (0, "touching nothing"));
        for (number, (case, block)) in cases.iter().zip(&blocks).enumerate() {
            let second = Claim::new(8, &SET, case);
            let [_, met, _] = register.applies(second, block);
            let outcome = (if met { 67 } else { 0 }, "a pair of paths");
            register.clone().claim(tally, second, outcome);
            if met {
                let mut other = SET;
                other[number % 32] = 1 << (number / 32 % 8);
                let second = Claim::new(8, &other, case);
                let outcome = (0, "a pair of paths, of sets that differ in one bit");
                register.clone().claim(tally, second, outcome);
            }
        }
    }
}

fn accepted(case: &BlockCase) -> Block {
    oracle::block::block(&case.code, case.base, case.revision).expect("an accepted block")
}

/// Claims and releases from an empty register.
fn sequence(tally: &mut Tally, r: &mut Random) {
    let mut register = Sides::empty();
    let (owners, sets) = (owners(r), sets(r));
    if sets.iter().all(|set| *set == sets[0]) {
        register.one_set = Some(vec![]);
    }
    for _ in 0..STEPS {
        let step = step(r, owners, sets.len());
        take(tally, &mut register, &step, &sets);
    }
    let (first, second) = (r.pick(&owners), r.pick(&owners));
    let mut other = register.clone();
    let outcome = (0, "releases by two owners in either order");
    for owner in [first, second] {
        register.release(tally, owner, outcome);
    }
    for owner in [second, first] {
        other.release(tally, owner, outcome);
    }
    let after = |sides: &Sides| plain::locks_in(&sides.words.words);
    tally.same(&after(&register), &after(&other), || {
        format!("releases by {first} and {second}")
    });
}

/// Steps in a register of these words and zeros after them, or in an empty one where there are none.
pub fn compare(tally: &mut Tally, words: &[u64], steps: &[Step], sets: &[Source]) {
    let mut register = match words {
        [] => Sides::empty(),
        _ => {
            let mut given = words.iter().copied();
            Sides::of(std::array::from_fn(|_| given.next().unwrap_or(0)))
        }
    };
    register.read(tally, || "before all steps".into());
    for step in steps {
        take(tally, &mut register, step, sets);
    }
}

/// A claim or a release. Where no write touched a lock of another owner, none does after it.
fn take(tally: &mut Tally, register: &mut Sides, step: &Step, sets: &[Source]) {
    let was_safe = plain::safe(&register.plain);
    match step {
        Step::Claim(owner, set, case) => claim(tally, register, *owner, &sets[*set], case),
        Step::Release(owner) => release(tally, register, *owner),
    }
    let safe = plain::safe(&plain::locks_in(&register.words.words));
    tally.same(&true, &(safe || !was_safe), || {
        "a write touches a lock of another owner".into()
    });
}

/// A claim with all its tables, and with one that is short.
fn claim(tally: &mut Tally, register: &mut Sides, owner: u32, set: &Source, case: &BlockCase) {
    let asked = Claim::new(owner, set, case);
    let rust = oracle::block::block(&case.code, case.base, case.revision);
    let outcome = match &rust {
        Ok(block) => outcome(register, asked, block),
        Err(refusal) => (refusal.number, "the block"),
    };
    if let Ok(block) = &rust {
        register.short(tally, asked, block);
    }
    register.claim(tally, asked, outcome);
}

fn outcome(register: &Sides, asked: Claim, block: &Block) -> Outcome {
    let (held, claimed) = (&register.plain, asked.locks(block));
    let touched = |own: bool, touch: fn(&Lock, &Lock) -> bool| {
        let mut of = held
            .iter()
            .filter(|lock| (lock.owner == asked.owner) == own);
        of.any(|old| claimed.iter().any(|new| touch(old, new)))
    };
    match register.applies(asked, block) {
        [true, false, false] => (66, "alone"),
        [true, true, false] => (66, "before 67"),
        [true, false, true] => (66, "before 68"),
        [true, true, true] => (66, "before 67 and 68"),
        [_, true, false] => (67, "alone"),
        [_, true, true] => (67, "before 68"),
        [_, _, true] => (68, "alone"),
        _ if claimed.is_empty() && held.len() == 256 => (0, "no path, and 256 are held"),
        _ if claimed.is_empty() => (0, "no path"),
        _ if held.len() + claimed.len() == 256 => (0, "the last of 256"),
        _ if touched(false, but_for_the_set) => (0, "touching all but the source set of another's"),
        _ if touched(false, plain::touch) => (0, "a borrow beside one that it touches"),
        _ if touched(true, plain::touch) => (0, "touching what the owner holds"),
        _ => (0, "touching nothing"),
    }
}

/// Whether 67 would be given if the sets were the same, which they are not.
fn but_for_the_set(a: &Lock, b: &Lock) -> bool {
    a.source != b.source && plain::hinders(&plain::forgotten(a), &plain::forgotten(b))
}

fn release(tally: &mut Tally, register: &mut Sides, owner: u32) {
    let holds = register.plain.iter().any(|lock| lock.owner == owner);
    let outcome = match holds {
        true => (0, "release"),
        false => (0, "release, and nothing is held by it"),
    };
    register.release(tally, owner, outcome);
}

/// A register of 240 to 256 locks, and claims of which 66, 67 and 68 apply or not, by a block that is whole and by one that is not.
fn crowded(tally: &mut Tally, r: &mut Random) {
    let mut register = Sides::empty();
    let [first, second, _] = owners(r);
    let held = r.within(240, 256);
    let case_of_crowd = crowd(r, held);
    let set = r.digest();
    claim(tally, &mut register, first, &set, &case_of_crowd);
    for choice in 0..16 {
        let [long, met, full, broken] = [1, 2, 4, 8].map(|bit| choice & bit != 0);
        let least = (long as usize) + (met as usize);
        let room = 256 - held;
        let count = match full {
            true => room + 1 + r.below(3),
            false => room - r.below(2).min(room),
        };
        let mut block = beside_a_crowd(r, count.max(least), long, met);
        let whole = case(r, &block);
        if !broken {
            let mut register = register.clone();
            claim(tally, &mut register, second, &set, &whole);
            let mut other = set;
            other[r.below(32)] ^= 1 << r.below(8);
            claim(tally, &mut register, second, &other, &whole);
            continue;
        }
        let asked = |case| Claim::new(second, &set, case);
        let before = match register.applies(asked(&whole), &accepted(&whole)) {
            [true, _, _] => "before 66",
            [_, true, _] => "before 67",
            [_, _, true] => "before 68",
            _ => "the block",
        };
        if let Some(signature) = &mut block.signature {
            signature.tag = *b"SIG1";
        }
        let case = case(r, &block);
        register.claim(tally, asked(&case), (71, before));
    }
    let empty = block(r, 22, vec![]);
    let empty = case(r, &empty);
    claim(tally, &mut register, second, &set, &empty);
    release(tally, &mut register, first);
}

/// Claims and releases in a register of any words.
fn of_any_words(tally: &mut Tally, r: &mut Random) {
    let mut register = Sides::of(*any_words(r));
    register.read(tally, || "any words".into());
    for _ in 0..6 {
        let owner = r.below(4) as u32;
        if r.one_in(5) {
            register.release(tally, owner, (0, "release of any words"));
            continue;
        }
        let case = any_claim(r);
        let Ok(block) = oracle::block::block(&case.code, case.base, case.revision) else {
            continue;
        };
        let mut set = SET;
        if r.one_in(4) {
            set[r.below(32)] = 1 << r.below(8);
        }
        let asked = Claim::new(owner, &set, &case);
        let words = match register.applies(asked, &block) {
            [true, _, _] => (66, "any words"),
            [_, true, _] => (67, "any words"),
            [_, _, true] => (68, "any words"),
            _ if block.paths.is_empty() => (0, "any words, no path"),
            _ => (0, "any words"),
        };
        register.short(tally, asked, &block);
        register.claim(tally, asked, words);
    }
}

/// Blocks of 65,535 paths, and of 256 paths of 16 components and of 17.
fn large(tally: &mut Tally, r: &mut Random) {
    for (count, length) in [(65_535, 0), (65_535, 16), (256, 16), (256, 17), (257, 16)] {
        let block = inputs::block::large(r, 22, [0, 0, count], length);
        let case = case(r, &block);
        let mut register = Sides::empty();
        claim(tally, &mut register, 1, &SET, &case);
        claim(tally, &mut register, 2, &SET, &case);
        release(tally, &mut register, 1);
    }
}

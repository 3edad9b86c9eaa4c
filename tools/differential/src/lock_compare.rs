//! A register on each side: the words that the port is lent, the locks of the plain lines (tools/oracle/plain/locks.rs) and, where it was empty at
//! first, the crate's. After each claim the answer, the lent tables and every word or lock are compared.

use crate::block_binding;
use crate::block_compare::{self, OLD, OLD_BYTE, counts, lent, places, what};
use crate::block_numbers::NOT_THERE;
use crate::tally::{Outcome, Tally, hex};
use answers::Answer;
use answers::block::Block;
use answers::locks::{Lock, Source};
use answers::refusal::{Kind, Refusal};
use falgnust::calls::{self, BlockTables};
use falgnust::locks::{self, ClaimError};
use inputs::cases::BlockCase;
use oracle::locks as plain;
use port::locks::{Register, claim, lock, of_crate, part};

#[derive(Clone)]
pub struct Sides {
    pub words: Box<Register>,
    pub plain: Vec<Lock>,
    pub binding: Option<locks::Register>,
    /// In a sequence of one source set: what is held by the lines of Slip 2, which know of none.
    pub one_set: Option<Vec<Lock>>,
}

/// A claim: the owner, its source set, and the block.
#[derive(Clone, Copy)]
pub struct Claim<'a> {
    pub owner: u32,
    pub set: &'a Source,
    pub case: &'a BlockCase,
}

impl<'a> Claim<'a> {
    pub fn new(owner: u32, set: &'a Source, case: &'a BlockCase) -> Self {
        Claim { owner, set, case }
    }

    /// The locks that it asks for.
    pub fn locks(&self, block: &Block) -> Vec<Lock> {
        let lock = |path| plain::lock(self.owner, self.set, path);
        block.paths.iter().map(lock).collect()
    }

    fn what(&self) -> String {
        let Claim { owner, set, case } = self;
        format!("owner {owner}, set {}, {}", hex(&set[..]), what(case))
    }
}

/// Lengths of the lent strings, paths and families.
type Rooms = [usize; 3];

/// An answer, and after it the lent strings, paths and families.
type Called = (Answer<usize>, Vec<u64>, Vec<u64>, Vec<u8>);

const SHORT: [Outcome; 3] = [(61, "strings"), (61, "paths"), (61, "families")];

impl Sides {
    pub fn empty() -> Self {
        Sides {
            words: Box::new(Register { words: [0; 6145] }),
            plain: vec![],
            binding: Some(locks::Register::new()),
            one_set: None,
        }
    }

    /// A register of any words, which no crate has.
    pub fn of(words: [u64; 6145]) -> Self {
        Sides {
            plain: plain::locks_in(&words),
            words: Box::new(Register { words }),
            binding: None,
            one_set: None,
        }
    }

    /// Which of 66, 67 and 68 apply to a claim of a block's paths.
    pub fn applies(&self, claim: Claim, block: &Block) -> [bool; 3] {
        plain::applies(&self.plain, &claim.locks(block))
    }

    /// A claim, and what each side makes of it. The outcome says what is counted.
    pub fn claim(&mut self, tally: &mut Tally, asked: Claim, outcome: Outcome) {
        tally.input(outcome);
        let case = asked.case;
        let rust = oracle::block::block(&case.code, case.base, case.revision);
        let (due, rooms) = match &rust {
            Ok(block) => {
                let claimed = asked.locks(block);
                self.as_before(tally, asked, &claimed);
                let answer = plain::claim(&mut self.plain, claimed);
                let [strings, _, paths, families] = counts(&block.layout);
                let more = case.code.len() % 3;
                (
                    answer.map_err(added),
                    [strings, paths, families].map(|n| n + more),
                )
            }
            Err(refusal) => {
                let [strings, _, paths, families] = block_compare::rooms(case);
                (Err(*refusal), [strings, paths, families])
            }
        };
        let left = called(due, rust.as_ref().ok(), rooms);
        self.same(tally, asked, left);
        self.through_crate(tally, asked, due);
    }

    /// Against the same locks with their sets forgotten: a claim that did not meet 67 does not meet it now. In a sequence of one set it is
    /// answered as it was.
    fn as_before(&mut self, tally: &mut Tally, asked: Claim, claimed: &[Lock]) {
        let forget = |locks: &[Lock]| locks.iter().map(plain::forgotten).collect::<Vec<Lock>>();
        let [_, met, _] = plain::applies(&self.plain, claimed);
        let [_, was_met, _] = plain::applies(&forget(&self.plain), &forget(claimed));
        tally.same(&false, &(met && !was_met), || {
            format!("67 that was none, {}", asked.what())
        });
        if let Some(held) = &mut self.one_set {
            let was = plain::claim(held, forget(claimed));
            let is = plain::claim(&mut self.plain.clone(), claimed.to_vec());
            tally.same(&was, &is, || format!("of one set, {}", asked.what()));
        }
    }

    /// 61: one table an entry too short, the others just long enough.
    pub fn short(&mut self, tally: &mut Tally, asked: Claim, block: &Block) {
        let before = self.applies(asked, block);
        let ([strings, _, paths, families], [at, _, second, third]) =
            (counts(&block.layout), places(&block.layout));
        let (counts, places) = ([strings, paths, families], [at, second, third]);
        for table in 0..3 {
            if counts[table] == 0 {
                continue;
            }
            tally.input(match before {
                [true, _, _] => (61, "before 66"),
                [_, true, _] => (61, "before 67"),
                [_, _, true] => (61, "before 68"),
                _ => SHORT[table],
            });
            let mut rooms = counts;
            rooms[table] -= 1;
            let refusal = Refusal {
                offset: asked.case.base.saturating_add(places[table]),
                ..added(61)
            };
            self.same(tally, asked, called(Err(refusal), None, rooms));
        }
    }

    pub fn release(&mut self, tally: &mut Tally, owner: u32, outcome: Outcome) {
        tally.input(outcome);
        let due = plain::release(&mut self.plain, owner);
        if let Some(held) = &mut self.one_set {
            plain::release(held, owner);
        }
        let answer = calls::release(&mut self.words, owner);
        tally.same(&due, &answer, || format!("release by {owner}"));
        if let Some(binding) = &mut self.binding {
            let answer = binding.release(owner);
            tally.same(&due, &answer, || format!("release by {owner}, the binding"));
        }
        self.read(tally, || format!("release by {owner}"));
        self.in_crate(tally, || format!("release by {owner}"));
    }

    /// The answer and the lent tables; after a refusal every word of the register, else every lock.
    fn same(&mut self, tally: &mut Tally, asked: Claim, due: Called) {
        let rooms = [due.1.len(), due.2.len(), due.3.len()];
        let before = self.words.clone();
        let answer = self.call(asked, rooms);
        let refused = due.0.is_err();
        let words = || asked.what();
        tally.same(&due, &answer, words);
        if refused {
            let changed = first_change(&before, &self.words);
            tally.same(&None, &changed, || format!("a word, {}", words()));
        } else {
            self.read(tally, words);
        }
    }

    fn call(&mut self, asked: Claim, rooms: Rooms) -> Called {
        let [strings, paths, families] = rooms;
        let (mut strings, mut paths) = (vec![OLD; strings], vec![OLD; paths]);
        let mut families = vec![OLD_BYTE; families];
        let answer = claim(
            &mut self.words,
            asked.owner,
            asked.case.base,
            &asked.case.code,
            asked.case.revision,
            asked.set,
            BlockTables {
                strings: &mut strings,
                paths: &mut paths,
                families: &mut families,
            },
        );
        (answer, strings, paths, families)
    }

    /// What is held: by the words, and by the functions that read them.
    pub fn read(&self, tally: &mut Tally, what: impl Fn() -> String) {
        let (words, held) = (&self.words, self.plain.len());
        self.all(tally, plain::locks_in(&words.words), || {
            format!("the words, {}", what())
        });
        tally.same(&held, &calls::held(words), &what);
        let locks: Answer<Vec<Lock>> = (0..held).map(|number| lock(words, number)).collect();
        self.all(tally, locks.unwrap_or_default(), || {
            format!("by number, {}", what())
        });
        tally.same(&Err(NOT_THERE), &lock(words, held), &what);
        tally.same(&Err(NOT_THERE), &part(words, held, 0), &what);
        if let Some(last) = self.plain.last() {
            let past = part(words, held - 1, last.parts.len());
            tally.same(&Err(NOT_THERE), &past, &what);
        }
    }

    /// Whether these are the locks that are held; the first that is not is shown.
    fn all(&self, tally: &mut Tally, found: Vec<Lock>, what: impl Fn() -> String) {
        let many = self.plain.len().max(found.len());
        let other = (0..many).find(|n| self.plain.get(*n) != found.get(*n));
        let at = |locks: &[Lock]| other.map(|n| (n, locks.get(n).cloned()));
        tally.same(&at(&self.plain), &at(&found), what);
    }

    /// The crate's answer and its locks: the plain lines' or, of a block that is refused, the Rust's error.
    fn through_crate(&mut self, tally: &mut Tally, asked: Claim, due: Answer<usize>) {
        let Some(binding) = &mut self.binding else {
            return;
        };
        let BlockCase {
            code,
            base,
            revision,
        } = asked.case;
        let due = match due {
            Ok(held) => Ok(Ok(held)),
            Err(Refusal {
                number: number @ 66..=68,
                ..
            }) => Ok(Err(number)),
            Err(_) => {
                let rust = oracle::semcode_decode::block(*base, code, *revision);
                block_binding::rust_told(rust).map(|_| panic!("a block that is refused"))
            }
        };
        let answer = match binding.claim(asked.owner, *base, code, *revision, asked.set) {
            Err(ClaimError::Block(error)) => block_binding::told(Err(error)),
            Err(error) => Ok(Err(error.number().expect("66, 67 or 68"))),
            Ok(held) => Ok(Ok(held)),
        };
        tally.same(&due, &answer, || format!("the binding, {}", asked.what()));
        self.in_crate(tally, || asked.what());
    }

    /// What the crate holds.
    fn in_crate(&self, tally: &mut Tally, what: impl Fn() -> String) {
        if let Some(binding) = &self.binding {
            let locks = binding.locks().into_iter().map(of_crate).collect();
            self.all(tally, locks, || format!("in the binding, {}", what()));
            tally.same(&self.plain.len(), &binding.held(), what);
        }
    }
}

fn added(number: u8) -> Refusal {
    Refusal {
        kind: Kind::Added,
        number,
        offset: 0,
    }
}

/// What a call leaves: the block's tables, or zeros after any refusal.
fn called(due: Answer<usize>, block: Option<&Block>, [strings, paths, families]: Rooms) -> Called {
    let none = (&[][..], &[][..], &[][..]);
    let left = match block {
        Some(block) if due.is_ok() => (
            &block.string_starts[..],
            &block.path_starts[..],
            &block.families[..],
        ),
        _ => none,
    };
    (
        due,
        lent(left.0, strings),
        lent(left.1, paths),
        lent(left.2, families),
    )
}

/// The first word that differs.
fn first_change(before: &Register, after: &Register) -> Option<(usize, u64, u64)> {
    let mut words = before.words.iter().zip(&after.words).enumerate();
    let (at, (old, new)) = words.find(|(_, (old, new))| old != new)?;
    Some((at, *old, *new))
}

//! Locks, against the port itself, which stands in the Rust's columns: a claim against the decoder on the same block, a release against a copy of
//! the register. Tables are fitted to the block.

use crate::blocks::{BASE, REVISION};
use crate::rows::{Calls, Plan, Row, calls, plan};
use answers::locks::Source;
use falgnust::calls::{BlockTables, release};
use inputs::block::{Block, Component, Path};
use inputs::locks::block;
use inputs::random::Random;
use port::block::parse_string_table_debug_and_ownership;
use port::locks::{Register, claim};
use std::cell::RefCell;
use std::hint::black_box;

/// The owner of what is held, and the one that claims.
const HOLDS: u32 = 1;
const CLAIMS: u32 = 2;

/// The source set of both.
const SET: Source = [7; 32];

pub fn rows() -> Vec<Plan> {
    vec![
        of("1 path, empty register", 0, || {
            ([vec![], writes(1, 3, 1, |_| 0)], 0)
        }),
        of("1 path, 255 locks of other roots", 255, || {
            ([writes(255, 3, 0, |_| 0), writes(1, 3, 1, |_| 0)], 0)
        }),
        of("256 paths of 16 components, empty register", 0, || {
            ([vec![], writes(256, 16, 1, |_| 0)], 0)
        }),
        of(
            "65,535 paths of 16 components, 256 locks that differ in the last",
            256,
            || {
                let held = writes(256, 16, 1, |path| path);
                ([held, writes(65_535, 16, 1, |path| 256 + path)], 68)
            },
        ),
        of(
            "65,535 paths of 16 components, 256 locks that differ in the first",
            256,
            || {
                let (held, claimed) = (writes(256, 16, 1, |path| path), |path| 256 + path);
                let paths = [held, writes(65_535, 16, 1, claimed)];
                (paths.map(turned), 68)
            },
        ),
        of(
            "65,535 paths of 16 components, 256 locks of other roots",
            256,
            || {
                let held = writes(256, 16, 0, |path| path);
                ([held, writes(65_535, 16, 1, |path| 256 + path)], 68)
            },
        ),
        plan(
            "against a copy of the register, a copy and the release of half of 256",
            released,
        ),
    ]
}

/// So many writes of a root, each of so many fields, of which the last is told.
fn writes(count: u32, components: usize, root: u32, last: fn(u32) -> u32) -> Vec<Path> {
    let field = |number: u32| Component {
        kind: 1,
        value: number.to_le_bytes().to_vec(),
    };
    let path = |number| {
        let mut fields = vec![field(7); components - 1];
        fields.push(field(last(number)));
        Path {
            event: 1,
            mode: vec![0, 9, 0, 0, 0],
            root,
            count: None,
            components: fields,
        }
    };
    (0..count).map(path).collect()
}

/// The components in the other order.
fn turned(mut paths: Vec<Path>) -> Vec<Path> {
    paths.iter_mut().for_each(|path| path.components.reverse());
    paths
}

fn whole(paths: Vec<Path>) -> Block {
    block(&mut Random::new(1), REVISION, paths)
}

/// What is held, what is claimed, and the number of the refusal.
type Make = fn() -> ([Vec<Path>; 2], u8);

fn of(name: &str, count: usize, make: Make) -> Plan {
    plan(
        &format!("against the decoder, claim, {name}"),
        move |name| {
            let ([held, claimed], due) = make();
            let mut register = Box::new(Register { words: [0; 6145] });
            let (held, claimed) = (whole(held).bytes(), whole(claimed).bytes());
            Lent::new(&held).claim(&mut register, HOLDS, &held, 0);
            assert_eq!(register.words[0], count as u64, "{name}");
            Row {
                name,
                bytes: claimed.len(),
                rust: decoder(claimed.clone()),
                port: claims(register, claimed, due),
            }
        },
    )
}

/// What is lent for a block.
struct Lent {
    strings: Vec<u64>,
    paths: Vec<u64>,
    families: Vec<u8>,
}

impl Lent {
    /// As much as the block needs.
    fn new(code: &[u8]) -> Self {
        let block = oracle::block::block(code, BASE, REVISION).expect("an accepted block");
        Lent {
            strings: vec![0; block.strings.len()],
            paths: vec![0; block.paths.len()],
            families: vec![0; block.families.len()],
        }
    }

    fn tables(&mut self) -> BlockTables<'_> {
        BlockTables {
            strings: &mut self.strings,
            paths: &mut self.paths,
            families: &mut self.families,
        }
    }

    fn claim(&mut self, register: &mut Register, owner: u32, code: &[u8], due: u8) {
        let answer = claim(register, owner, BASE, code, REVISION, &SET, self.tables());
        assert_eq!(answer.map_or_else(|refusal| refusal.number, |_| 0), due);
    }
}

fn decoder(code: Vec<u8>) -> Calls {
    let lent = RefCell::new(Lent::new(&code));
    calls(move || {
        let mut lent = lent.borrow_mut();
        let (code, tables) = (black_box(&code), lent.tables());
        let answer = parse_string_table_debug_and_ownership(BASE, code, REVISION, &mut [], tables);
        answer.is_ok() as u64
    })
}

/// Each call finds as many locks as were held at first: those behind them are nobody's.
fn claims(register: Box<Register>, code: Vec<u8>, due: u8) -> Calls {
    let held = register.words[0];
    let state = RefCell::new((register, Lent::new(&code)));
    calls(move || {
        let (register, lent) = &mut *state.borrow_mut();
        register.words[0] = held;
        lent.claim(register, CLAIMS, black_box(&code), due);
        1
    })
}

/// Locks of two owners by turns.
fn released(name: String) -> Row {
    let mut full = Box::new(Register { words: [0; 6145] });
    for number in 0..256 {
        let code = whole(writes(1, 16, number, |_| 0)).bytes();
        let owner = if number % 2 == 0 { HOLDS } else { CLAIMS };
        Lent::new(&code).claim(&mut full, owner, &code, 0);
    }
    let copied = |full: Box<Register>, after: fn(&mut Register)| {
        let register = RefCell::new(full.clone());
        calls(move || {
            let register = &mut *register.borrow_mut();
            register.words.copy_from_slice(black_box(&full.words));
            after(black_box(register));
            1
        })
    };
    Row {
        name,
        bytes: size_of::<Register>(),
        rust: copied(full.clone(), |_| ()),
        port: copied(full, |register| {
            assert_eq!(release(register, HOLDS), 128);
        }),
    }
}

//! One block on both sides: the words of its records in one lent table, made here of the Rust's records.

use crate::block_compare::{OLD, what};
use crate::tally::Tally;
use answers::Answer;
use answers::block::{Activation, Block, Component, Event, Execution, Layout, Path};
use answers::refusal::{Kind, Refusal};
use inputs::cases::BlockCase;
use port::block::block_words;

/// An answer with how many words there are, and the lent table after it.
type Called = (Answer<(Layout, usize)>, Vec<u64>);

/// With room for the words or a few more, whose entries are left, and with an entry too few; a refusal leaves zeros, whatever the room.
pub fn compare(tally: &mut Tally, case: &BlockCase, rust: &Answer<Block>) {
    let more = case.code.len() % 3;
    let (room, expected) = match rust {
        Ok(block) => {
            let words = words(block);
            short(tally, case, block, words.len());
            let room = words.len() + more;
            (room, fitted(block, words, more))
        }
        Err(refusal) => (more, (Err(*refusal), vec![0; more])),
    };
    tally.same(&expected, &call(case, room), || {
        format!("{room} words, {}", what(case))
    });
}

fn fitted(block: &Block, mut words: Vec<u64>, more: usize) -> Called {
    let count = words.len();
    words.resize(count + more, OLD);
    (Ok((block.layout, count)), words)
}

/// 61 at the block's end, which the Rust does not have.
fn short(tally: &mut Tally, case: &BlockCase, block: &Block, count: usize) {
    if count == 0 {
        return;
    }
    let refusal = Refusal {
        kind: Kind::Added,
        number: 61,
        offset: case.base.saturating_add(block.layout.instructions),
    };
    tally.input((61, "words, no Rust side"));
    let expected = (Err(refusal), vec![0; count - 1]);
    tally.same(&expected, &call(case, count - 1), || {
        format!("a word too few, {}", what(case))
    });
}

fn call(case: &BlockCase, room: usize) -> Called {
    let mut words = vec![OLD; room];
    let answer = block_words(case.base, &case.code, case.revision, &mut words);
    (answer, words)
}

/// Strings, symbols and paths, in that order.
fn words(block: &Block) -> Vec<u64> {
    let mut words = Vec::new();
    for (string, start) in block.strings.iter().zip(&block.string_starts) {
        words.extend([start + 2, string.len() as u64]);
    }
    for symbol in &block.symbols {
        words.extend([symbol.pc as u64, symbol.line.into(), symbol.column.into()]);
    }
    for Path {
        event,
        root,
        components,
    } in &block.paths
    {
        let (number, site) = numbered(*event);
        words.extend([number, site.into(), (*root).into(), components.len() as u64]);
        words.extend(components.iter().map(component));
    }
    words
}

fn numbered(event: Event) -> (u64, u32) {
    match event {
        Event::Borrow(Activation::None) => (0, 0),
        Event::Borrow(Activation::FrameEntry) => (1, 0),
        Event::Borrow(Activation::StoreSite(site)) => (2, site),
        Event::Write(Execution::None) => (3, 0),
        Event::Write(Execution::StoreSite(site)) => (4, site),
        Event::Write(Execution::RecordSite(site)) => (5, site),
    }
}

fn component(component: &Component) -> u64 {
    let (kind, first, second) = match *component {
        Component::TupleIndex(index) => (0, index.into(), 0),
        Component::FieldSymbol(symbol) => (1, symbol, 0),
        Component::Variant { variant, index } => (2, variant, index),
        Component::SequenceIndex(index) => (3, index, 0),
    };
    kind + 4 * u64::from(first) + (1 << 34) * u64::from(second)
}

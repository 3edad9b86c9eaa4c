//! Function tables.

use crate::refusal;
use answers::Answer;
use answers::block::{Activation, Component, Event, Execution, Layout, Symbol};
use falgnust::calls::{self, BlockTables};
use falgnust::raw;

pub use falgnust::raw::DebugSymbol;

/// The symbols go to the lent list, starts and families to the lent tables.
#[inline]
pub fn parse_string_table_debug_and_ownership(
    base_offset: usize,
    code: &[u8],
    header_rev: u16,
    symbols: &mut [DebugSymbol],
    lent: BlockTables,
) -> Answer<Layout> {
    let b =
        calls::parse_string_table_debug_and_ownership(base_offset, code, header_rev, symbols, lent);
    if !b.accepted {
        return Err(refusal::answer(b.refusal));
    }
    Ok(layout(b))
}

/// How many words there are, too; the words go to the front of the lent table.
#[inline]
pub fn block_words(
    base_offset: usize,
    code: &[u8],
    header_rev: u16,
    words: &mut [u64],
) -> Answer<(Layout, usize)> {
    let b = calls::block_words(base_offset, code, header_rev, words);
    if !b.block.accepted {
        return Err(refusal::answer(b.block.refusal));
    }
    Ok((layout(b.block), b.words))
}

pub(crate) fn layout(b: raw::Block) -> Layout {
    Layout {
        strings: b.string_count,
        strings_end: b.string_table_end_offset,
        has_debug: b.has_debug_section,
        symbols: b.debug_symbol_count,
        symbols_start: b.debug_symbols_start,
        has_ownership: b.has_ownership_section,
        paths: b.path_count,
        has_signature: b.has_signature,
        families: b.parameter_count,
        families_start: b.families_start,
        instructions: b.instr_start_offset,
    }
}

/// The symbol at a place, and the place after it.
#[inline]
pub fn read_debug_symbol(code: &[u8], at: usize) -> Answer<(Symbol, usize)> {
    symbol(calls::read_debug_symbol(code, at))
}

pub(crate) fn symbol(s: raw::Symbol) -> Answer<(Symbol, usize)> {
    if !s.accepted {
        return Err(refusal::answer(s.refusal));
    }
    let symbol = Symbol {
        pc: s.pc,
        line: s.line,
        column: s.col,
    };
    Ok((symbol, s.next))
}

/// A path without its components, which are so many from a place on.
#[derive(Debug, Clone, Copy, PartialEq, Eq)]
pub struct Head {
    pub event: Event,
    pub root: u32,
    pub count: u16,
    pub components_start: usize,
    pub next: usize,
}

#[inline]
pub fn read_path(code: &[u8], at: usize, header_rev: u16) -> Answer<Head> {
    path(calls::read_path(code, at, header_rev))
}

pub(crate) fn path(p: raw::Path) -> Answer<Head> {
    if !p.accepted {
        return Err(refusal::answer(p.refusal));
    }
    let site = p.event.site;
    let event = match p.event.event {
        0 => Event::Borrow(Activation::None),
        1 => Event::Borrow(Activation::FrameEntry),
        2 => Event::Borrow(Activation::StoreSite(site)),
        3 => Event::Write(Execution::None),
        4 => Event::Write(Execution::StoreSite(site)),
        5 => Event::Write(Execution::RecordSite(site)),
        other => panic!("event {other}"),
    };
    Ok(Head {
        event,
        root: p.root_symbol_id,
        count: p.component_count,
        components_start: p.components_start,
        next: p.next,
    })
}

/// The component at a place of a path with this event kind, and the place after it.
#[inline]
pub fn read_component(
    code: &[u8],
    at: usize,
    header_rev: u16,
    kind: u8,
) -> Answer<(Component, usize)> {
    component(calls::read_component(code, at, header_rev, kind))
}

pub(crate) fn component(c: raw::Component) -> Answer<(Component, usize)> {
    if !c.accepted {
        return Err(refusal::answer(c.refusal));
    }
    let raw::Parts {
        kind,
        first,
        second,
    } = c.component;
    let component = match kind {
        0 => Component::TupleIndex(u16::try_from(first).expect("a tuple index")),
        1 => Component::FieldSymbol(first),
        2 => Component::Variant {
            variant: first,
            index: second,
        },
        3 => Component::SequenceIndex(first),
        other => panic!("component kind {other}"),
    };
    Ok((component, c.next))
}

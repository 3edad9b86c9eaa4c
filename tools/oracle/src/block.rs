//! A function's block as the Rust decodes it, with borrows and writes in the block's order and the starts that follow from the records.

use crate::messages::of_block;
use crate::section::starts;
use crate::semcode_decode::{
    self, DecodedAccessPath, DecodedAccessPathComponent, DecodedBorrowActivation,
    DecodedDebugSymbol, DecodedWriteExecution,
};
use answers::Answer;
use answers::block::{Activation, Block, Component, Event, Execution, Layout, Path, Symbol};

pub fn block(code: &[u8], base: usize, revision: u16) -> Answer<Block> {
    let parsed = semcode_decode::block(base, code, revision).map_err(of_block)?;
    Ok(answer(code, parsed))
}

/// The Rust's result for a block.
pub(crate) fn answer(code: &[u8], parsed: semcode_decode::Block) -> Block {
    let (string_starts, strings_end) = starts(2, parsed.strings.iter().map(|text| 2 + text.len()));
    let symbols_start = strings_end + if parsed.has_debug_section { 4 + 2 } else { 0 };
    let debug_end = symbols_start + 10 * parsed.debug_symbols.len();
    let paths_start = debug_end
        + if parsed.has_ownership_section {
            4 + 2
        } else {
            0
        };
    let (path_starts, paths, paths_end) = in_order(
        code,
        paths_start,
        &parsed.borrowed_paths,
        &parsed.write_paths,
    );
    let has_signature = parsed.signature.is_some();
    let families_start = paths_end + if has_signature { 4 + 2 } else { 0 };
    let families: Vec<u8> = parsed
        .signature
        .into_iter()
        .flat_map(|signature| signature.families)
        .map(|family| family.byte())
        .collect();
    let symbols: Vec<Symbol> = parsed.debug_symbols.iter().map(symbol).collect();
    Block {
        layout: Layout {
            strings: parsed.strings.len(),
            strings_end: parsed.string_table_end_offset,
            has_debug: parsed.has_debug_section,
            symbols: symbols.len(),
            symbols_start,
            has_ownership: parsed.has_ownership_section,
            paths: paths.len(),
            has_signature,
            families: families.len(),
            families_start,
            instructions: parsed.instr_start_offset,
        },
        string_starts,
        strings: parsed.strings,
        symbols,
        path_starts,
        paths,
        families,
    }
}

fn symbol(s: &DecodedDebugSymbol) -> Symbol {
    Symbol {
        pc: s.pc,
        line: s.line,
        column: s.col,
    }
}

/// The Rust's two lists as one, and the place after them: each path's event kind byte says which of the two has it.
fn in_order(
    code: &[u8],
    first: usize,
    borrows: &[DecodedAccessPath],
    writes: &[DecodedAccessPath],
) -> (Vec<u64>, Vec<Path>, usize) {
    let (mut starts, mut paths) = (Vec::new(), Vec::new());
    let (mut borrows, mut writes, mut at) = (borrows.iter(), writes.iter(), first);
    while !borrows.as_slice().is_empty() || !writes.as_slice().is_empty() {
        let write = code[at] == 1;
        let next = if write { writes.next() } else { borrows.next() };
        let path = next.expect("as many of each kind as the block has");
        starts.push(at as u64);
        paths.push(Path {
            event: event(write, path),
            root: path.root_symbol_id,
            components: path.components.iter().map(component).collect(),
        });
        at += size(path);
    }
    (starts, paths, at)
}

fn event(write: bool, path: &DecodedAccessPath) -> Event {
    if write {
        assert_eq!(path.activation, None, "a write with an activation");
        Event::Write(match path.write_execution {
            None => Execution::None,
            Some(DecodedWriteExecution::StoreVarSite(site)) => Execution::StoreSite(site),
            Some(DecodedWriteExecution::MakeRecordSite(site)) => Execution::RecordSite(site),
        })
    } else {
        assert_eq!(path.write_execution, None, "a borrow with an execution");
        Event::Borrow(match path.activation {
            None => Activation::None,
            Some(DecodedBorrowActivation::FrameEntry) => Activation::FrameEntry,
            Some(DecodedBorrowActivation::StoreVarSite(site)) => Activation::StoreSite(site),
        })
    }
}

fn component(component: &DecodedAccessPathComponent) -> Component {
    match *component {
        DecodedAccessPathComponent::TupleIndex(index) => Component::TupleIndex(index),
        DecodedAccessPathComponent::FieldSymbol(field) => Component::FieldSymbol(field),
        DecodedAccessPathComponent::AdtPayload { variant, index } => {
            Component::Variant { variant, index }
        }
        DecodedAccessPathComponent::SequenceIndexStatic(index) => Component::SequenceIndex(index),
    }
}

fn size(path: &DecodedAccessPath) -> usize {
    let borrow = match path.activation {
        None => 0,
        Some(DecodedBorrowActivation::FrameEntry) => 1,
        Some(DecodedBorrowActivation::StoreVarSite(_)) => 5,
    };
    let write = match path.write_execution {
        None => 0,
        Some(_) => 5,
    };
    let components: usize = path.components.iter().map(component_size).sum();
    1 + borrow + write + 4 + 2 + components
}

fn component_size(component: &DecodedAccessPathComponent) -> usize {
    match component {
        DecodedAccessPathComponent::TupleIndex(_) => 3,
        DecodedAccessPathComponent::FieldSymbol(_) => 5,
        DecodedAccessPathComponent::AdtPayload { .. } => 7,
        DecodedAccessPathComponent::SequenceIndexStatic(_) => 5,
    }
}

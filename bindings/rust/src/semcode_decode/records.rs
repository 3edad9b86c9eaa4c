//! The records of a block, as the proved functions give them.
//!
//! A string is copied without a second look at its bytes. That they are UTF-8 is in the contracts: a block is accepted, and a string read,
//! only where each string is (`string_at` in crates/local_format/specs/Text.antt, refusal 34), and the words of a string that was read are
//! its place and length (`string_words` in crates/record_words/proofs/Read.antt); those of a block's strings are so by their definition
//! (`string_words` in crates/path_words/specs/Blocks.antt).

use super::signature::signature;
use super::{
    Block, DecodedAccessPath, DecodedAccessPathComponent, DecodedBorrowActivation,
    DecodedDebugSymbol, DecodedEvent, DecodedWriteExecution, MAX_STRINGS_PER_FUNCTION,
    StringTableDebugOwnershipParse,
};
use crate::calls::{self, BlockLists};
use crate::raw;
use crate::read::{Read, accepted, records, room, text, there, whole};
use std::mem::MaybeUninit;

impl Block<'_> {
    /// An accepted block by its words: those of its strings, symbols and paths. A family is the byte at its place.
    #[inline]
    pub fn of_words(&self, answer: &raw::Block, words: &[u64]) -> StringTableDebugOwnershipParse {
        let (strings, words) = words.split_at(2 * answer.string_count);
        let (symbols, mut words) = words.split_at(3 * answer.debug_symbol_count);
        let text =
            |[start, len]: &[u64; 2]| accepted_text(self.code, *start as usize, *len as usize);
        let strings = strings.as_chunks().0;
        let texts = if strings.len() <= SOME_STRINGS {
            let mut texts = Vec::with_capacity(strings.len());
            for words in strings {
                texts.push(text(words));
            }
            texts
        } else {
            many(strings, text)
        };
        let symbols = symbols.as_chunks().0.iter();
        let debug_symbols = symbols
            .map(|[pc, line, col]| DecodedDebugSymbol {
                pc: *pc as usize,
                line: *line as u32,
                col: *col as u16,
            })
            .collect();
        let mut paths = room_for_paths(answer.path_count);
        for _ in 0..answer.path_count {
            words = push_path(words, &mut paths);
        }
        let families = &self.code[answer.families_start..][..answer.parameter_count];
        parsed(answer, texts, debug_symbols, paths, families)
    }

    /// A long one: every record is read at its place.
    #[inline(always)]
    pub fn records(
        &self,
        answer: &raw::Block,
        lists: &BlockLists,
    ) -> StringTableDebugOwnershipParse {
        let code = self.code;
        let starts = &lists.paths[..answer.path_count];
        let mut paths = room_for_paths(starts.len());
        self.paths(starts, answer.instr_start_offset, &mut paths);
        let strings = records(
            code,
            &lists.strings[..answer.string_count],
            calls::text_words_in,
            |[start, len]| accepted_text(code, start as usize, len as usize),
        );
        let debug_symbols = lists.symbols[..answer.debug_symbol_count]
            .iter()
            .map(|s| DecodedDebugSymbol {
                pc: s.pc,
                line: s.line,
                col: s.col,
            })
            .collect();
        let families = &lists.families[..answer.parameter_count];
        parsed(answer, strings, debug_symbols, paths, families)
    }

    /// The paths that start at these places and have ended at `end`, those that are borrowed and those that are written: by their words, some at
    /// a time; where they are long, all at once.
    #[inline]
    fn paths(&self, starts: &[u64], end: usize, paths: &mut [Vec<DecodedAccessPath>; 2]) {
        if let Some(first) = starts.first() {
            let bytes = end - *first as usize; // a component has 3 at least, and a path 65,535 components at most
            let most = (bytes / 3 + 4 * starts.len()).min(MOST_WORDS * starts.len());
            if most > 80 * starts.len() {
                let mut room = Vec::with_capacity(most);
                self.paths_in(starts, room.spare_capacity_mut(), paths);
            } else {
                self.paths_in(starts, &mut room()[..most.min(80)], paths);
            }
        }
    }

    /// One that has more words than there is room for is read by itself.
    fn paths_in(
        &self,
        mut starts: &[u64],
        room: &mut [MaybeUninit<u64>],
        paths: &mut [Vec<DecodedAccessPath>; 2],
    ) {
        while let Some(first) = starts.first() {
            let (done, mut words) = calls::path_words_in(self.code, self.header_rev, starts, room);
            for _ in 0..done {
                words = push_path(words, paths);
            }
            starts = &starts[done..];
            if done == 0 {
                self.long_path(*first, paths);
                starts = &starts[1..];
            }
        }
    }

    #[cold]
    fn long_path(&self, start: u64, paths: &mut [Vec<DecodedAccessPath>; 2]) {
        let read = calls::read_path(self.code, start as usize, self.header_rev);
        let mut words = vec![0; 4 + read.component_count as usize];
        whole(calls::path_words(self.code, self.header_rev, &[start], &mut words) == 1);
        push_path(&words, paths);
    }

    pub fn string(&self, read: raw::Text) -> Read<String> {
        accepted(read.accepted, read.refusal)?;
        Ok(accepted_text(self.code, read.start, read.len))
    }

    /// A path with its components, which are read one after the other.
    #[inline]
    pub fn path(&self, read: raw::Path) -> Read<DecodedEvent> {
        accepted(read.accepted, read.refusal)?;
        let (kind, activation, write_execution) = event(read.event);
        let mut components = Vec::with_capacity(read.component_count as usize);
        let mut at = read.components_start;
        for _ in 0..read.component_count {
            let read = calls::read_component(self.code, at, self.header_rev, kind);
            at = read.next;
            components.push(there(component(read)));
        }
        let path = DecodedAccessPath {
            root_symbol_id: read.root_symbol_id,
            components,
            activation,
            write_execution,
        };
        match kind {
            0 => Ok(DecodedEvent::Borrow(path)),
            1 => Ok(DecodedEvent::Write(path)),
            _ => panic!("no event is {}", read.event.event),
        }
    }
}

/// These records with what the answer says beside them. The paths, those that are borrowed and those that are written, are copied last, since a copy
/// waits for what was just written.
#[inline(always)]
fn parsed(
    answer: &raw::Block,
    strings: Vec<String>,
    debug_symbols: Vec<DecodedDebugSymbol>,
    paths: [Vec<DecodedAccessPath>; 2],
    families: &[u8],
) -> StringTableDebugOwnershipParse {
    let signature = signature(answer.has_signature, families);
    let [borrowed_paths, write_paths] = paths;
    StringTableDebugOwnershipParse {
        strings,
        debug_symbols,
        borrowed_paths,
        write_paths,
        has_ownership_section: answer.has_ownership_section,
        has_debug_section: answer.has_debug_section,
        string_table_end_offset: answer.string_table_end_offset,
        signature,
        instr_start_offset: answer.instr_start_offset,
    }
}

/// The words of the longest path.
const MOST_WORDS: usize = 4 + u16::MAX as usize;

/// The strings whose vector has at most 1 kB.
const SOME_STRINGS: usize = 42;

/// Many strings, made before their vector: asked for more than 1 kB at once, the C library first gathers the small pieces that were given back to it,
/// which the strings would have taken.
#[cold]
#[inline(never)]
fn many(strings: &[[u64; 2]], text: impl Fn(&[u64; 2]) -> String) -> Vec<String> {
    let mut made = [const { String::new() }; MAX_STRINGS_PER_FUNCTION];
    let made = &mut made[..strings.len()];
    for (place, words) in made.iter_mut().zip(strings) {
        *place = text(words);
    }
    made.iter_mut().map(std::mem::take).collect()
}

/// For the paths that are borrowed and for those that are written: room for all in either, since a test at each path would not be foreseen.
#[inline]
fn room_for_paths(count: usize) -> [Vec<DecodedAccessPath>; 2] {
    [Vec::with_capacity(count), Vec::with_capacity(count)]
}

/// The path of the first of these words, to those that are borrowed or to those that are written, and the words after it. Events are mixed, so
/// that no branch for them is foreseen.
#[inline(always)]
fn push_path<'a>(words: &'a [u64], paths: &mut [Vec<DecodedAccessPath>; 2]) -> &'a [u64] {
    let [number, site, root, count, rest @ ..] = words else {
        panic!("a path has 4 words");
    };
    let (components, rest) = rest.split_at(*count as usize);
    let (kind, activation, write_execution) = event(raw::Event {
        event: *number as u8,
        site: *site as u32,
    });
    paths[kind as usize].push(DecodedAccessPath {
        root_symbol_id: *root as u32,
        components: components.iter().map(|word| of_word(*word)).collect(),
        activation,
        write_execution,
    });
    rest
}

/// The component of a word. Kinds are mixed, so that no branch for them is foreseen: written so, it is compiled without one.
#[inline]
fn of_word(word: u64) -> DecodedAccessPathComponent {
    let (kind, first, second) = (word % 4, (word >> 2) as u32, (word >> 34) as u16);
    let index = second | if kind == 0 { first as u16 } else { 0 };
    let mut component = DecodedAccessPathComponent::AdtPayload {
        variant: first,
        index,
    };
    if kind == 0 {
        component = DecodedAccessPathComponent::TupleIndex(index);
    }
    if kind == 1 {
        component = DecodedAccessPathComponent::FieldSymbol(first);
    }
    if kind == 3 {
        component = DecodedAccessPathComponent::SequenceIndexStatic(first);
    }
    component
}

/// The kind byte, 0 for a borrow, 1 for a write and more for no event, and what the event carries.
#[inline]
fn event(
    event: raw::Event,
) -> (
    u8,
    Option<DecodedBorrowActivation>,
    Option<DecodedWriteExecution>,
) {
    let raw::Event { event, site } = event;
    let activation = match event {
        1 => Some(DecodedBorrowActivation::FrameEntry),
        2 => Some(DecodedBorrowActivation::StoreVarSite(site)),
        _ => None,
    };
    let execution = match event {
        4 => Some(DecodedWriteExecution::StoreVarSite(site)),
        5 => Some(DecodedWriteExecution::MakeRecordSite(site)),
        _ => None,
    };
    (event / 3, activation, execution)
}

pub fn symbol(read: raw::Symbol) -> Read<DecodedDebugSymbol> {
    accepted(read.accepted, read.refusal)?;
    Ok(DecodedDebugSymbol {
        pc: read.pc,
        line: read.line,
        col: read.col,
    })
}

#[inline]
pub fn component(read: raw::Component) -> Read<DecodedAccessPathComponent> {
    accepted(read.accepted, read.refusal)?;
    Ok(of_parts(read.component))
}

#[inline]
pub(crate) fn of_parts(parts: raw::Parts) -> DecodedAccessPathComponent {
    let raw::Parts {
        kind,
        first,
        second,
    } = parts;
    match kind {
        0 => DecodedAccessPathComponent::TupleIndex(first as u16),
        1 => DecodedAccessPathComponent::FieldSymbol(first),
        2 => DecodedAccessPathComponent::AdtPayload {
            variant: first,
            index: second,
        },
        3 => DecodedAccessPathComponent::SequenceIndexStatic(first),
        other => panic!("no component is {other}"),
    }
}

/// A string of a block that was accepted.
#[inline]
#[allow(unsafe_code)]
fn accepted_text(code: &[u8], start: usize, len: usize) -> String {
    // SAFETY: place and length of a string that `falgnust_block_words`, `falgnust_parse_string_table_debug_and_ownership` or `falgnust_string_number`
    // accepted, which is UTF-8 (`string_at` in crates/local_format/specs/Text.antt, refusal 34).
    unsafe { text(code, start, len) }
}

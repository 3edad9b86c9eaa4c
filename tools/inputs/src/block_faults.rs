//! Faults of blocks, one for each condition of document 01. A fault that needs a record does nothing where there is none.

use crate::block::{Block, Path, Symbol, Table, component_of, string, symbol};
use crate::random::Random;
use crate::text::{ILL_FORMED, put};

pub type Fault = fn(&mut Block, &mut Random);

pub const FAULTS: [Fault; 22] = [
    cut,
    cut_late,
    cut_late,
    cut_late,
    string_count,
    string_length,
    string_ill_formed,
    tag,
    symbol_count,
    symbols_at_limit,
    path_count,
    event,
    mode,
    component_count,
    component_kind,
    component_of_other_revision,
    revision,
    ownership_left_out,
    signature_left_out,
    signature_tag,
    parameter_count,
    family,
];

/// A block with one fault, often with a second one.
pub fn damaged(r: &mut Random, mut b: Block) -> Block {
    let faults = if r.one_in(3) { 2 } else { 1 };
    for _ in 0..faults {
        r.pick(&FAULTS)(&mut b, r);
    }
    b
}

fn any_path<'a>(b: &'a mut Block, r: &mut Random) -> Option<&'a mut Path> {
    let paths = &mut b.ownership.as_mut()?.items;
    let count = paths.len();
    (count > 0).then(|| &mut paths[r.below(count)])
}

fn symbols(b: &mut Block) -> &mut Table<Symbol> {
    b.debug.get_or_insert_with(|| Table {
        tag: *b"DBG0",
        count: None,
        items: Vec::new(),
    })
}

/// Another count: one more, one less, or a far one.
fn other(r: &mut Random, length: usize) -> Option<u16> {
    let (length, any) = (length as u16, r.u16());
    Some(r.pick(&[length.wrapping_add(1), length.wrapping_sub(1), any]))
}

fn cut(b: &mut Block, r: &mut Random) {
    b.cut = 0;
    b.cut = r.within(1, b.bytes().len());
}

/// The end inside the last record, most often inside a path.
fn cut_late(b: &mut Block, r: &mut Random) {
    b.more.clear();
    b.cut = r.within(1, 14);
}

fn string_count(b: &mut Block, r: &mut Random) {
    if r.one_in(8) {
        let count = r.within(255, 257);
        b.strings.resize_with(count, || string(r));
    } else {
        b.count = other(r, b.strings.len());
    }
}

fn string_length(b: &mut Block, r: &mut Random) {
    let count = b.strings.len();
    if count == 0 {
        return;
    }
    let text = &mut b.strings[r.below(count)];
    match r.below(3) {
        0 => text.bytes.resize(1023 + r.below(3), b'y'),
        1 => text.length = Some(r.pick(&[1024, 1025, 65_535])),
        _ => text.length = other(r, text.bytes.len()),
    }
}

fn string_ill_formed(b: &mut Block, r: &mut Random) {
    let count = b.strings.len();
    if count > 0 {
        let bytes = r.pick(&ILL_FORMED);
        let at = r.below(count);
        put(r, &mut b.strings[at], bytes);
    }
}

fn tag(b: &mut Block, r: &mut Random) {
    let bit = 1 << r.below(8);
    if let (Some(table), true) = (&mut b.debug, r.one_in(2)) {
        table.tag[r.below(4)] ^= bit;
    } else if let Some(table) = &mut b.ownership {
        table.tag[r.below(4)] ^= bit;
    }
}

fn symbol_count(b: &mut Block, r: &mut Random) {
    let table = symbols(b);
    table.count = other(r, table.items.len());
}

fn symbols_at_limit(b: &mut Block, r: &mut Random) {
    let (rare, count) = (r.one_in(30), r.within(8191, 8193));
    let table = symbols(b);
    if rare {
        table.items.resize_with(count, || symbol(r));
    } else {
        table.count = Some(count as u16);
    }
}

fn path_count(b: &mut Block, r: &mut Random) {
    if let Some(table) = &mut b.ownership {
        table.count = other(r, table.items.len());
    }
}

fn event(b: &mut Block, r: &mut Random) {
    if let Some(path) = any_path(b, r) {
        path.event = r.pick(&[0, 1, 2, 3, 7, 255]);
        if path.event > 1 && r.one_in(2) {
            path.mode.clear();
        }
    }
}

fn mode(b: &mut Block, r: &mut Random) {
    if let Some(path) = any_path(b, r) {
        match path.mode.first_mut() {
            Some(mode) => *mode = r.pick(&[0, 1, 2, 3, 255]),
            None => path.mode.push(r.pick(&[0, 1, 2])),
        }
    }
}

fn component_count(b: &mut Block, r: &mut Random) {
    if let Some(path) = any_path(b, r) {
        path.count = other(r, path.components.len());
    }
}

fn component_kind(b: &mut Block, r: &mut Random) {
    if let Some(path) = any_path(b, r) {
        let count = path.components.len();
        if count > 0 {
            path.components[r.below(count)].kind = r.pick(&[0, 1, 2, 3, 4, 255]);
        }
    }
}

/// A variant or a sequence index, whatever the event and the revision.
fn component_of_other_revision(b: &mut Block, r: &mut Random) {
    if let Some(path) = any_path(b, r) {
        let (at, kind) = (r.below(path.components.len() + 1), r.pick(&[2, 3, 4]));
        path.components.insert(at, component_of(r, kind));
        if r.one_in(4) {
            path.event = 2;
            path.mode.clear();
        }
    }
}

fn ownership_left_out(b: &mut Block, _: &mut Random) {
    b.ownership = None;
}

fn signature_left_out(b: &mut Block, _: &mut Random) {
    b.signature = None;
}

/// A tag that is changed, or one that no revision asks for.
fn signature_tag(b: &mut Block, r: &mut Random) {
    match &mut b.signature {
        Some(table) => table.tag[r.below(4)] ^= 1 << r.below(8),
        None => {
            b.signature = Some(Table {
                tag: *b"SIG0",
                count: None,
                items: vec![1],
            })
        }
    }
}

fn parameter_count(b: &mut Block, r: &mut Random) {
    if let Some(table) = &mut b.signature {
        match r.below(4) {
            0 => table.count = Some(r.pick(&[4095, 4096, 4097, 65_535])),
            1 => table.items.resize(r.within(4095, 4097), 5),
            2 => {
                b.more.clear();
                b.cut = r.within(1, table.items.len() + 6);
            }
            _ => table.count = other(r, table.items.len()),
        }
    }
}

fn family(b: &mut Block, r: &mut Random) {
    if let Some(table) = &mut b.signature {
        let at = r.below(table.items.len() + 1);
        table.items.insert(at, r.pick(&[0, 1, 15, 16, 255]));
    }
}

fn revision(b: &mut Block, r: &mut Random) {
    b.revision = r.pick(&crate::block::REVISIONS);
}

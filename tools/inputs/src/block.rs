//! A function's block as a value of fields, written by document 01's layout, and valid blocks.

use crate::random::Random;
use crate::text::{CONTROLS, Text, encoded, put, text};

#[derive(Debug, Clone)]
pub struct Symbol {
    pub pc: u32,
    pub line: u32,
    pub column: u16,
}

#[derive(Debug, Clone)]
pub struct Component {
    pub kind: u8,
    pub value: Vec<u8>,
}

/// The mode byte with its site is there or not, as the revision asks.
#[derive(Debug, Clone)]
pub struct Path {
    pub event: u8,
    pub mode: Vec<u8>,
    pub root: u32,
    pub count: Option<u16>,
    pub components: Vec<Component>,
}

/// A tagged table, with the count that is written where it is not the true one.
#[derive(Debug, Clone)]
pub struct Table<T> {
    pub tag: [u8; 4],
    pub count: Option<u16>,
    pub items: Vec<T>,
}

#[derive(Debug, Clone)]
pub struct Block {
    pub revision: u16,
    pub count: Option<u16>,
    pub strings: Vec<Text>,
    pub debug: Option<Table<Symbol>>,
    pub ownership: Option<Table<Path>>,
    /// The families of the parameters.
    pub signature: Option<Table<u8>>,
    /// The instructions, and how many bytes are left out at the block's end.
    pub more: Vec<u8>,
    pub cut: usize,
}

/// Both sides of each border that the revision has.
pub const REVISIONS: [u16; 7] = [0, 19, 20, 21, 22, 23, 65_535];

/// The first revision with signatures.
const SIGNED: u16 = 20;

impl Block {
    pub fn bytes(&self) -> Vec<u8> {
        let mut out = Vec::new();
        count(&mut out, self.count, self.strings.len());
        for text in &self.strings {
            text.write(&mut out);
        }
        if let Some(table) = &self.debug {
            out.extend(table.tag);
            count(&mut out, table.count, table.items.len());
            for symbol in &table.items {
                out.extend(symbol.pc.to_le_bytes());
                out.extend(symbol.line.to_le_bytes());
                out.extend(symbol.column.to_le_bytes());
            }
        }
        if let Some(table) = &self.ownership {
            out.extend(table.tag);
            count(&mut out, table.count, table.items.len());
            for path in &table.items {
                path.write(&mut out);
            }
        }
        if let Some(table) = &self.signature {
            out.extend(table.tag);
            count(&mut out, table.count, table.items.len());
            out.extend(&table.items);
        }
        out.extend(&self.more);
        out.truncate(out.len().saturating_sub(self.cut));
        out
    }
}

impl Path {
    fn write(&self, out: &mut Vec<u8>) {
        out.push(self.event);
        out.extend(&self.mode);
        out.extend(self.root.to_le_bytes());
        count(out, self.count, self.components.len());
        for component in &self.components {
            out.push(component.kind);
            out.extend(&component.value);
        }
    }
}

fn count(out: &mut Vec<u8>, written: Option<u16>, length: usize) {
    out.extend(written.unwrap_or(length as u16).to_le_bytes());
}

/// A block of a few records.
pub fn small(r: &mut Random) -> Block {
    let revision = r.pick(&REVISIONS);
    small_at(r, revision)
}

pub fn small_at(r: &mut Random, revision: u16) -> Block {
    let strings = (0..r.below(5)).map(|_| string(r)).collect();
    let debug =
        (!r.one_in(3)).then(|| table(*b"DBG0", (0..r.below(4)).map(|_| symbol(r)).collect()));
    let ownership = (revision >= SIGNED || !r.one_in(5)).then(|| {
        table(
            *b"OWN0",
            (0..r.below(6)).map(|_| path(r, revision)).collect(),
        )
    });
    let more = (0..r.below(6)).map(|_| r.byte()).collect();
    Block {
        revision,
        count: None,
        strings,
        debug,
        ownership,
        signature: signature(r, revision),
        more,
        cut: 0,
    }
}

/// The signature that a revision asks for; most have a few parameters.
pub(crate) fn signature(r: &mut Random, revision: u16) -> Option<Table<u8>> {
    let parameters = if r.one_in(400) {
        r.within(4094, 4096)
    } else {
        r.below(5)
    };
    let families = (0..parameters).map(|_| r.within(1, 15) as u8).collect();
    (revision >= SIGNED).then(|| table(*b"SIG0", families))
}

/// A block with each form that a revision has: both events with each mode, each component, strings that are empty and that are not.
pub fn each_form(r: &mut Random, revision: u16) -> Block {
    let modes = |event: u8| -> Vec<Vec<u8>> {
        match (revision < 21, event) {
            (true, _) => vec![vec![]],
            (false, 0) => vec![vec![0], vec![1, 9, 0, 0, 0]],
            (false, _) => vec![vec![0, 9, 0, 0, 0], vec![1, 9, 0, 0, 0]],
        }
    };
    let mut paths = Vec::new();
    for event in [1, 0] {
        for mode in modes(event) {
            let components = component_kinds(revision, event)
                .iter()
                .map(|&kind| component_of(r, kind))
                .collect();
            paths.push(Path {
                event,
                mode,
                root: 9,
                count: None,
                components,
            });
        }
    }
    Block {
        revision,
        count: None,
        strings: vec![Text::new(b""), Text::new("k\u{85}\u{e9}".as_bytes())],
        debug: Some(table(*b"DBG0", vec![symbol(r), symbol(r)])),
        ownership: Some(table(*b"OWN0", paths)),
        signature: (revision >= SIGNED).then(|| table(*b"SIG0", vec![1, 15])),
        more: vec![0x44],
        cut: 0,
    }
}

/// A block with these many strings, symbols and paths, each path with so many components.
pub fn large(r: &mut Random, revision: u16, counts: [usize; 3], components: usize) -> Block {
    let paths = (0..counts[2])
        .map(|_| {
            let mut path = path(r, revision);
            path.components = (0..components)
                .map(|_| component(r, revision, path.event))
                .collect();
            path
        })
        .collect();
    Block {
        revision,
        count: None,
        strings: (0..counts[0]).map(|_| string(r)).collect(),
        debug: Some(table(*b"DBG0", (0..counts[1]).map(|_| symbol(r)).collect())),
        ownership: Some(table(*b"OWN0", paths)),
        signature: (revision >= SIGNED).then(|| table(*b"SIG0", vec![7, 8, 9])),
        more: Vec::new(),
        cut: 0,
    }
}

pub(crate) fn table<T>(tag: [u8; 4], items: Vec<T>) -> Table<T> {
    Table {
        tag,
        count: None,
        items,
    }
}

/// May be empty and hold control characters.
pub fn string(r: &mut Random) -> Text {
    if r.one_in(5) {
        return Text::new(b"");
    }
    let mut string = text(r);
    if r.one_in(5) {
        let control = encoded(r.pick(&CONTROLS));
        string.bytes.extend(control);
    }
    if r.one_in(50) {
        string = Text::new(&vec![b'x'; r.within(1022, 1024)]);
    }
    if r.one_in(60) {
        string = Text::new(b"");
        put(r, &mut string, "\u{85}".as_bytes());
    }
    string
}

pub fn symbol(r: &mut Random) -> Symbol {
    Symbol {
        pc: r.u32(),
        line: r.u32(),
        column: r.u16(),
    }
}

pub fn path(r: &mut Random, revision: u16) -> Path {
    let event = r.below(2) as u8;
    Path {
        event,
        mode: mode(r, revision, event),
        root: r.u32(),
        count: None,
        components: (0..r.below(5))
            .map(|_| component(r, revision, event))
            .collect(),
    }
}

pub(crate) fn mode(r: &mut Random, revision: u16, event: u8) -> Vec<u8> {
    if revision < 21 {
        return Vec::new();
    }
    let mode = r.below(2) as u8;
    let mut bytes = vec![mode];
    if (event, mode) != (0, 0) {
        bytes.extend(r.u32().to_le_bytes());
    }
    bytes
}

fn component(r: &mut Random, revision: u16, event: u8) -> Component {
    let kind = r.pick(component_kinds(revision, event));
    component_of(r, kind)
}

fn component_kinds(revision: u16, event: u8) -> &'static [u8] {
    match (revision >= 22, event) {
        (false, _) => &[0, 1],
        (true, 0) => &[0, 1, 2, 3],
        (true, _) => &[0, 1, 3],
    }
}

/// A component of any kind, with as many bytes as the kind has.
pub fn component_of(r: &mut Random, kind: u8) -> Component {
    let size = match kind {
        0 => 2,
        2 => 6,
        _ => 4,
    };
    Component {
        kind,
        value: (0..size).map(|_| r.byte()).collect(),
    }
}

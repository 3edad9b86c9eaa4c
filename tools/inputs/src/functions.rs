//! A file of functions as a value of fields, written by document 02's layout (Slip 1), and valid files.

use crate::block::{self, Block, REVISIONS};
use crate::random::Random;
use crate::text::{CONTROLS, Text, encoded, text};

#[derive(Debug, Clone)]
pub struct Function {
    pub name: Text,
    /// The code length that is written, where it is not the block's.
    pub size: Option<u32>,
    pub block: Block,
}

#[derive(Debug, Clone)]
pub struct File {
    pub revision: u16,
    /// What stands before the cursor.
    pub before: Vec<u8>,
    pub functions: Vec<Function>,
    /// What follows the functions, and how many bytes are left out at the end.
    pub more: Vec<u8>,
    pub cut: usize,
}

impl File {
    pub fn bytes(&self) -> Vec<u8> {
        let mut out = self.before.clone();
        for function in &self.functions {
            function.write(&mut out);
        }
        out.extend(&self.more);
        let end = out.len().saturating_sub(self.cut);
        out.truncate(end.max(self.before.len()));
        out
    }
}

impl Function {
    pub fn write(&self, out: &mut Vec<u8>) {
        let code = self.block.bytes();
        self.name.write(out);
        out.extend(self.size.unwrap_or(code.len() as u32).to_le_bytes());
        out.extend(code);
    }
}

/// 1 to 1,024 bytes, and control characters pass.
pub fn name(r: &mut Random) -> Text {
    match r.below(40) {
        0 => Text::new(&vec![b'n'; r.within(1022, 1024)]),
        1 => Text::new(b"n"),
        2..6 => {
            let mut name = text(r);
            let at = if r.one_in(2) { 0 } else { name.bytes.len() };
            let control = encoded(r.pick(&CONTROLS));
            name.bytes.splice(at..at, control);
            name
        }
        _ => text(r),
    }
}

pub fn function(r: &mut Random, revision: u16) -> Function {
    Function {
        name: name(r),
        size: None,
        block: block::small_at(r, revision),
    }
}

/// Up to six functions; in a third of the files blocks do not grow from one to the next, in others they do not shrink.
pub fn small(r: &mut Random) -> File {
    let revision = r.pick(&REVISIONS);
    let mut functions: Vec<Function> = (0..r.below(7)).map(|_| function(r, revision)).collect();
    match r.below(6) {
        0 | 1 => functions.sort_by_key(|f| std::cmp::Reverse(f.block.bytes().len())),
        2 => functions.sort_by_key(|f| f.block.bytes().len()),
        _ => (),
    }
    let before = if r.one_in(3) { r.below(20) } else { 0 };
    File {
        revision,
        before: (0..before).map(|_| r.byte()).collect(),
        functions,
        more: Vec::new(),
        cut: 0,
    }
}

/// So many functions with blocks of a few bytes.
pub fn many(r: &mut Random, count: usize) -> File {
    let revision = r.pick(&REVISIONS);
    let mut file = small(r);
    file.revision = revision;
    file.functions = (0..count).map(|_| tiny(r, revision)).collect();
    file
}

/// A function whose block has no records, or a string.
fn tiny(r: &mut Random, revision: u16) -> Function {
    let strings = if r.one_in(8) {
        vec![Text::new(b"s")]
    } else {
        Vec::new()
    };
    let mut block = block::large(r, revision, [0, 0, 0], 0);
    block.strings = strings;
    if block.signature.is_none() {
        (block.debug, block.ownership) = (None, None);
    }
    Function {
        name: Text::new(&[b'a' + r.below(26) as u8]),
        size: None,
        block,
    }
}

//! What a decoder is called with: sections, blocks and files of functions at random, valid or damaged.

use crate::block::{self, Block, REVISIONS};
use crate::random::Random;
use crate::section::Section;
use crate::{block_faults, function_faults, functions, section_faults, shapes};

pub struct SectionCase {
    pub file: Vec<u8>,
    pub cursor: usize,
}

pub struct BlockCase {
    pub code: Vec<u8>,
    pub base: usize,
    pub revision: u16,
}

pub struct FileCase {
    pub file: Vec<u8>,
    pub cursor: usize,
    pub revision: u16,
}

/// Bases at which a sum is exact, reaches 2^64 - 1 or is held there.
pub const BASES: [usize; 4] = [0, 1000, usize::MAX - 20, usize::MAX];

/// What is made of a section before it is damaged.
pub type Form = fn(&mut Random, Section) -> Section;

/// The section as it is, of schema 1.
pub const AS_IT_IS: Form = |_, section| section;

/// A small section somewhere in a file.
pub fn section(r: &mut Random) -> SectionCase {
    section_in(r, AS_IT_IS)
}

/// The same in this form.
pub fn section_in(r: &mut Random, form: Form) -> SectionCase {
    let section = shapes::small(r);
    let section = form(r, section);
    in_file(r, section)
}

/// A section of some hundred records somewhere in a file.
pub fn large_section(r: &mut Random) -> SectionCase {
    large_section_in(r, AS_IT_IS)
}

/// The same in this form.
pub fn large_section_in(r: &mut Random, form: Form) -> SectionCase {
    let section = shapes::many(r);
    let section = form(r, section);
    in_file(r, section)
}

/// A section somewhere in a file, valid or damaged.
pub fn in_file(r: &mut Random, section: Section) -> SectionCase {
    let bytes = match r.below(8) {
        0 => section.bytes(),
        1 => section_faults::scrambled(r, section.bytes()),
        _ => section_faults::damaged(r, section).bytes(),
    };
    let before = if r.one_in(4) { r.below(20) } else { 0 };
    let after = if r.one_in(4) { r.below(20) } else { 0 };
    let mut file: Vec<u8> = (0..before).map(|_| r.byte()).collect();
    file.extend(bytes);
    file.extend((0..after).map(|_| r.byte()));
    if r.one_in(50) {
        file.truncate(before + r.below(8));
    }
    let cursor = match r.below(100) {
        0 => usize::MAX - r.below(12),
        1 => r.below(file.len() + 12),
        _ => before,
    };
    SectionCase { file, cursor }
}

/// A small block at some base.
pub fn block(r: &mut Random) -> BlockCase {
    let block = block::small(r);
    at_base(r, block)
}

/// A block of some thousand records at some base.
pub fn large_block(r: &mut Random) -> BlockCase {
    let counts = [r.below(257), r.below(3000), r.below(2000)];
    let (revision, components) = (r.pick(&REVISIONS), r.below(12));
    let block = block::large(r, revision, counts, components);
    at_base(r, block)
}

fn at_base(r: &mut Random, mut block: Block) -> BlockCase {
    let code = match r.below(8) {
        0 => block.bytes(),
        1 => section_faults::scrambled(r, block.bytes()),
        _ => {
            block = block_faults::damaged(r, block);
            block.bytes()
        }
    };
    let base = match r.below(3) {
        0 => r.pick(&BASES),
        1 => usize::MAX - r.below(code.len() + 2),
        _ => r.u64() as usize,
    };
    BlockCase {
        code,
        base,
        revision: block.revision,
    }
}

/// A file of a few functions.
pub fn functions(r: &mut Random) -> FileCase {
    let file = functions::small(r);
    of_file(r, file)
}

/// A file of 1,023 to 1,025 functions.
pub fn many_functions(r: &mut Random) -> FileCase {
    let count = r.within(1023, 1025);
    let file = functions::many(r, count);
    if r.one_in(2) {
        let (cursor, revision) = (file.before.len(), file.revision);
        return FileCase {
            file: file.bytes(),
            cursor,
            revision,
        };
    }
    of_file(r, file)
}

fn of_file(r: &mut Random, mut file: functions::File) -> FileCase {
    let (cursor, revision) = (file.before.len(), file.revision);
    let bytes = match r.below(8) {
        0 | 1 => file.bytes(),
        2 => section_faults::scrambled(r, file.bytes()),
        _ => {
            file = function_faults::damaged(r, file);
            file.bytes()
        }
    };
    let cursor = match r.below(60) {
        0 => usize::MAX - r.below(12),
        1 => bytes.len() + r.below(3),
        2 => r.below(bytes.len() + 12),
        _ => cursor,
    };
    FileCase {
        file: bytes,
        cursor,
        revision,
    }
}

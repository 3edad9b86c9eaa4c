//! Faults of files: in each field of a head, in a chosen block, and at the end. A fault that needs a function does nothing where there is none.

use crate::block_faults;
use crate::functions::{File, Function, name};
use crate::random::Random;
use crate::text::{ILL_FORMED, put};

pub type Fault = fn(&mut File, &mut Random);

pub const FAULTS: [Fault; 16] = [
    cut,
    cut_late,
    name_length,
    name_empty,
    name_long,
    name_ill_formed,
    code_length,
    code_length,
    head_cut,
    head_cut,
    name_cut,
    more,
    block,
    block,
    block,
    last_block,
];

/// A file with one fault, often with a second one.
pub fn damaged(r: &mut Random, mut file: File) -> File {
    let faults = if r.one_in(3) { 2 } else { 1 };
    for _ in 0..faults {
        r.pick(&FAULTS)(&mut file, r);
    }
    file
}

fn any<'a>(file: &'a mut File, r: &mut Random) -> Option<&'a mut Function> {
    let count = file.functions.len();
    (count > 0).then(|| &mut file.functions[r.below(count)])
}

fn cut(file: &mut File, r: &mut Random) {
    file.cut = 0;
    file.cut = r.within(1, file.bytes().len().max(1));
}

fn cut_late(file: &mut File, r: &mut Random) {
    file.cut = r.within(1, 12);
}

fn name_length(file: &mut File, r: &mut Random) {
    if let Some(function) = any(file, r) {
        let length = function.name.bytes.len() as u16;
        let far = r.u16();
        let others = [length.wrapping_add(1), length.wrapping_sub(1), far, 0, 1025];
        function.name.length = Some(r.pick(&others));
    }
}

fn name_empty(file: &mut File, r: &mut Random) {
    if let Some(function) = any(file, r) {
        function.name.bytes.clear();
    }
}

fn name_long(file: &mut File, r: &mut Random) {
    if let Some(function) = any(file, r) {
        function.name.bytes = vec![b'n'; r.within(1023, 1026)];
        if r.one_in(4) {
            function.name.length = Some(r.pick(&[1024, 1025, 65_535]));
        }
    }
}

fn name_ill_formed(file: &mut File, r: &mut Random) {
    if let Some(function) = any(file, r) {
        let bytes = r.pick(&ILL_FORMED);
        put(r, &mut function.name, bytes);
    }
}

fn code_length(file: &mut File, r: &mut Random) {
    if let Some(function) = any(file, r) {
        let length = function.block.bytes().len() as u32;
        let far = r.u32();
        let others = [
            length.wrapping_add(1),
            length.wrapping_sub(1),
            length + 9,
            0,
            1,
            far,
            u32::MAX,
        ];
        function.size = Some(r.pick(&others));
    }
}

/// A head that the end cuts: in the name's length or in the code length.
fn head_cut(file: &mut File, r: &mut Random) {
    file.cut = 0;
    if r.one_in(2) {
        file.more = vec![r.byte()];
    } else {
        file.more.clear();
        name(r).write(&mut file.more);
        let length = r.u32().to_le_bytes();
        file.more.extend(&length[..r.below(4)]);
    }
}

/// A name that the end cuts.
fn name_cut(file: &mut File, r: &mut Random) {
    let name = name(r);
    file.cut = r.within(1, name.bytes.len());
    file.more.clear();
    name.write(&mut file.more);
}

fn more(file: &mut File, r: &mut Random) {
    file.more = (0..r.within(1, 12)).map(|_| r.byte()).collect();
}

fn block(file: &mut File, r: &mut Random) {
    if let Some(function) = any(file, r) {
        function.block = block_faults::damaged(r, function.block.clone());
    }
}

fn last_block(file: &mut File, r: &mut Random) {
    if let Some(function) = file.functions.last_mut() {
        function.block = block_faults::damaged(r, function.block.clone());
    }
}

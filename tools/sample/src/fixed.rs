//! Inputs that are not picked at random: the run-only cases of document 01, and every cut and one change of each byte of small inputs.

use inputs::block::each_form;
use inputs::cases::{BASES, BlockCase, SectionCase};
use inputs::random::Random;
use inputs::shapes;
use inputs::wide::wide;

pub fn print() {
    let r = &mut Random::new(1);
    for proofs in [255, 256, 257] {
        section(shapes::chain(r, proofs).bytes());
    }
    for length in [4_194_304, 4_194_305] {
        let mut section_of_length = shapes::two_proofs(r);
        section_of_length.length = Some(length);
        section(section_of_length.bytes());
    }
    let four = shapes::two_proofs(r);
    let long = wide(r, four.clone());
    for four in [four.bytes(), long.bytes()] {
        cut(&four);
        changed(&four, section);
    }
    for (number, revision) in [20, 21, 22].into_iter().enumerate() {
        let code = each_form(r, revision).bytes();
        let print = |code| block(code, BASES[number], revision);
        for end in 0..=code.len() {
            print(code[..end].to_vec());
        }
        changed(&code, print);
    }
}

/// Each cut, with the payload length as it was and with it repaired.
fn cut(bytes: &[u8]) {
    for end in 0..=bytes.len() {
        let mut cut = bytes[..end].to_vec();
        section(cut.clone());
        if end >= 8 {
            cut[4..8].copy_from_slice(&(end as u32 - 8).to_le_bytes());
            section(cut);
        }
    }
}

/// Each byte in turn with its lowest bit changed.
fn changed(bytes: &[u8], print: impl Fn(Vec<u8>)) {
    for at in 0..bytes.len() {
        let mut changed = bytes.to_vec();
        changed[at] ^= 1;
        print(changed);
    }
}

fn section(file: Vec<u8>) {
    crate::section(&SectionCase { file, cursor: 0 });
}

fn block(code: Vec<u8>, base: usize, revision: u16) {
    crate::block(&BlockCase {
        code,
        base,
        revision,
    });
}

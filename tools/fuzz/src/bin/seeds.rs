//! Writes a corpus to start from: the specimens' shapes, and small sections, blocks, files of functions, tables of rules and column
//! files, of which most have a fault, pairs of sections, and claims and releases.

use fuzz::{Case, by_rules, bytes, of_one_pool, of_owners};
use inputs::block::{self, REVISIONS};
use inputs::cases::{self, BlockCase, SectionCase};
use inputs::columns;
use inputs::random::Random;
use inputs::shapes;
use inputs::wide::wide;
use std::path::Path;

/// So many random sections of each schema, and as many of each other kind.
const EACH: usize = 300;

fn main() -> std::io::Result<()> {
    let folder = std::env::args().nth(1).expect("usage: seeds FOLDER");
    let r = &mut Random::new(1);
    let mut all = Vec::new();
    for shape in [shapes::one_proof, shapes::two_proofs, shapes::joined] {
        let file = shape(r).bytes();
        all.push(Case::Section(SectionCase { file, cursor: 0 }));
        let section = shape(r);
        let file = wide(r, section).bytes();
        all.push(Case::Section(SectionCase { file, cursor: 0 }));
    }
    for proofs in [8, 256, 257] {
        let file = shapes::chain(r, proofs).bytes();
        all.push(Case::Section(SectionCase { file, cursor: 0 }));
    }
    for revision in REVISIONS {
        let code = block::each_form(r, revision).bytes();
        all.push(Case::Block(BlockCase {
            code,
            base: 0,
            revision,
        }));
    }
    for _ in 0..EACH {
        all.push(Case::Section(cases::section(r)));
        all.push(Case::Section(cases::section_in(r, wide)));
        all.push(Case::Block(cases::block(r)));
        all.push(Case::Functions(cases::functions(r)));
        all.push(by_rules(r));
        all.push(of_one_pool(r));
        all.push(of_owners(r));
        all.push(Case::Columns(columns::small(r)));
    }
    for (number, case) in all.iter().enumerate() {
        std::fs::write(Path::new(&folder).join(number.to_string()), bytes(case))?;
    }
    Ok(())
}

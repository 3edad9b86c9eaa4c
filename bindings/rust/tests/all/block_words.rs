//! A block with the words of its records in one table: they are those of the calls that read the records by their starts. And blocks around the lengths
//! where the crate takes another way.

use crate::blocks::{BASES, with};
use crate::words::paths;
use falgnust::calls::{
    BlockTables, block_words, parse_string_table_debug_and_ownership as by_tables, path_words,
    read_path, text_words,
};
use falgnust::raw::{Block, BlockWords, DebugSymbol, Refusal};
use falgnust::semcode_decode::parse_string_table_debug_and_ownership as parse;

const REVISION: u16 = 22;

/// What the words' table holds before a call.
const OLD: u64 = 9;

/// Two strings, one of them empty, two symbols, a path of each event, two families, and an instruction.
fn each_form() -> Vec<u8> {
    [
        &b"\x02\x00\x00\x00\x03\x00a\xc3\xa9"[..],
        b"DBG0\x02\x00\x07\x00\x00\x00\x08\x00\x00\x00\x09\x00\xff\xfe\xfd\xfc\xfb\xfa\xf9\xf8\xf7\xf6",
        b"OWN0\x04\x00",
        &paths().0,
        b"SIG0\x02\x00\x01\x0f\x44",
    ]
    .concat()
}

/// The block, and its words by the starts of its records.
fn expected(base: usize, code: &[u8], revision: u16) -> (Block, Vec<u64>) {
    let mut symbols = [DebugSymbol::default(); 200];
    let (mut strings, mut paths, mut families) = ([0; 256], [0; 200], [0; 4096]);
    let lent = BlockTables {
        strings: &mut strings,
        paths: &mut paths,
        families: &mut families,
    };
    let block = by_tables(base, code, revision, &mut symbols, lent);
    let mut words = vec![OLD; 2 * block.string_count];
    assert!(text_words(code, &strings[..block.string_count], &mut words));
    for symbol in &symbols[..block.debug_symbol_count] {
        words.extend([symbol.pc as u64, symbol.line.into(), symbol.col.into()]);
    }
    for start in &paths[..block.path_count] {
        let count = read_path(code, *start as usize, revision).component_count;
        let mut path = vec![OLD; 4 + usize::from(count)];
        assert_eq!(path_words(code, revision, &[*start], &mut path), 1);
        words.extend(path);
    }
    (block, words)
}

/// With room for all words, and for some more.
fn fits(base: usize, code: &[u8], revision: u16) {
    let (block, words) = expected(base, code, revision);
    for more in [0, 1, 7] {
        let mut table = vec![OLD; words.len() + more];
        let answer = block_words(base, code, revision, &mut table);
        let count = words.len();
        assert_eq!(
            answer,
            BlockWords {
                block,
                words: count
            }
        );
        assert_eq!(table[..count], words);
        assert_eq!(table[count..], vec![OLD; more]);
    }
}

#[test]
fn words_that_fit() {
    for base in BASES {
        fits(base, &each_form(), REVISION);
        for counts in [
            [0; 4],
            [9, 0, 0, 0],
            [0, 9, 0, 0],
            [0, 0, 9, 0],
            [0, 0, 0, 9],
        ] {
            fits(base, &with(counts), REVISION);
        }
        fits(base, &with([256, 200, 200, 4096]), REVISION);
        fits(base, b"\x01\x00\x02\x00hi\x07", 19);
    }
}

/// 61 where the block ends, and zeros.
#[test]
fn words_that_do_not_fit() {
    let code = each_form();
    let (block, words) = expected(0, &code, REVISION);
    for base in BASES {
        for room in 0..words.len() {
            let mut table = vec![OLD; room];
            let answer = block_words(base, &code, REVISION, &mut table);
            let refusal = Refusal {
                kind: 5,
                number: 61,
                offset: base.saturating_add(block.instr_start_offset),
            };
            assert_eq!(answer, refused(refusal));
            assert_eq!(table, vec![0; room]);
        }
    }
}

fn refused(refusal: Refusal) -> BlockWords {
    BlockWords {
        block: Block {
            refusal,
            ..Block::default()
        },
        words: 0,
    }
}

/// A refused block is refused so whatever room there is, and leaves zeros.
#[test]
fn blocks_that_are_refused() {
    let code = each_form();
    for base in BASES {
        for end in 0..code.len() - 1 {
            let (block, _) = expected(base, &code[..end], REVISION);
            assert!(!block.accepted);
            for room in [0, 3, 40, 200] {
                let mut table = vec![OLD; room];
                let answer = block_words(base, &code[..end], REVISION, &mut table);
                assert_eq!(answer, refused(block.refusal));
                assert_eq!(table, vec![0; room]);
            }
        }
    }
}

/// Instructions make a block so long that the crate lends its words elsewhere, or the starts of its records.
#[test]
fn short_and_long_blocks() {
    for block in [each_form(), with([3, 4, 5, 6]), with([0; 4])] {
        let short = parse(7, &block, REVISION).unwrap();
        for length in [511, 512, 513, 16_383, 16_384, 16_385] {
            let mut code = block.clone();
            code.resize(length, 0x44);
            assert_eq!(parse(7, &code, REVISION).as_ref(), Ok(&short));
            code[0] = 9; // strings where there are none
            let error = parse(7, &code, REVISION).unwrap_err();
            let (block, _) = expected(7, &code, REVISION);
            let Refusal { number, offset, .. } = block.refusal;
            assert_eq!(
                (error.number(), error.offset()),
                (Some(number), Some(offset))
            );
        }
    }
}

/// Blocks with as many words as they have bytes, but for their counts and tags.
#[test]
fn many_words() {
    let mut empty = vec![0, 1];
    empty.resize(2 + 2 * 256, 0);
    let block = parse(0, &empty, 19).unwrap();
    assert_eq!(block.strings, vec![""; 256]);
    for families in [100, 490, 491, 492, 493, 4096] {
        let block = parse(0, &with([0, 0, 0, families]), REVISION).unwrap();
        assert_eq!(block.signature.unwrap().families.len(), families);
    }
    for symbols in [40, 50, 51, 52, 1600, 1636, 1637, 1638] {
        let block = parse(0, &with([0, symbols, 0, 0]), REVISION).unwrap();
        assert_eq!(block.debug_symbols.len(), symbols);
    }
}

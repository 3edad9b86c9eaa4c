//! Files of functions.

use crate::block::{DebugSymbol, layout};
use crate::refusal;
use answers::Answer;
use answers::block::Layout;
use answers::functions::Head;
use answers::text::Span;
use falgnust::calls::{self, BlockTables};
use falgnust::raw;

/// How many functions there are, and where the last one's block stands and what it is.
#[derive(Debug, Clone, Copy, PartialEq, Eq)]
pub struct Decoded {
    pub functions: usize,
    pub last: Option<(usize, Layout)>,
}

/// What is lent.
pub struct Lent<'a> {
    pub functions: &'a mut [u64],
    pub strings: &'a mut [u64],
    pub symbols: &'a mut [DebugSymbol],
    pub paths: &'a mut [u64],
    pub families: &'a mut [u8],
}

/// The answer, and the cursor after the call.
#[inline]
pub fn decode_functions(
    bytes: &[u8],
    cursor: usize,
    header_rev: u16,
    lent: Lent,
) -> (Answer<Decoded>, usize) {
    let tables = BlockTables {
        strings: lent.strings,
        paths: lent.paths,
        families: lent.families,
    };
    let f = calls::decode_functions(
        bytes,
        cursor,
        header_rev,
        lent.symbols,
        lent.functions,
        tables,
    );
    let answer = if f.accepted {
        assert_eq!(f.refusal, raw::Refusal::default(), "zeros where accepted");
        Ok(Decoded {
            functions: f.functions,
            last: last(f),
        })
    } else {
        let zeros = (f.functions, f.last_code, f.last);
        assert_eq!(zeros, (0, 0, raw::Block::default()), "zeros where refused");
        Err(refusal::answer(f.refusal))
    };
    (answer, f.cursor)
}

fn last(f: raw::Functions) -> Option<(usize, Layout)> {
    if !f.last.accepted {
        let none = (f.last_code, f.last);
        assert_eq!(
            none,
            (0, raw::Block::default()),
            "zeros where there is none"
        );
        return None;
    }
    Some((f.last_code, layout(f.last)))
}

/// The head of the function at a place.
#[inline]
pub fn read_function(bytes: &[u8], at: usize) -> Answer<Head> {
    head(calls::read_function(bytes, at))
}

/// The head of a function by its number. No list of symbols is lent.
pub fn function_number(
    bytes: &[u8],
    cursor: usize,
    header_rev: u16,
    number: usize,
    functions: &mut [u64],
    tables: BlockTables,
) -> Answer<Head> {
    head(calls::function_number(
        bytes, cursor, header_rev, number, functions, tables,
    ))
}

fn head(f: raw::Function) -> Answer<Head> {
    if !f.accepted {
        let zeros = raw::Function {
            refusal: f.refusal,
            ..raw::Function::default()
        };
        assert_eq!(f, zeros, "zeros where refused");
        return Err(refusal::answer(f.refusal));
    }
    let head = Head {
        name: Span {
            start: f.name.start,
            len: f.name.len,
            chars: f.name.chars,
            next: f.name.next,
        },
        code: f.code_offset,
        size: f.code_len,
    };
    assert_eq!(f.next, head.next(), "the place after the block");
    Ok(head)
}

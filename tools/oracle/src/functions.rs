//! All functions of a file as the Rust decodes them.

use crate::block;
use crate::evr0::characters;
use crate::local_format::supported_headers;
use crate::messages::of_block;
use crate::semcode_decode::{self, DecodedFunctionEnvelope, functions_from};
use answers::Answer;
use answers::functions::{File, Function, Head};
use answers::text::Span;

/// The functions from a cursor to the end.
pub fn functions(bytes: &[u8], cursor: usize, revision: u16) -> Answer<File> {
    let found = functions_from(bytes, cursor, revision).map_err(of_block)?;
    let functions: Vec<Function> = found.into_iter().map(function).collect();
    let end = functions.last().map_or(cursor, |last| last.head.next());
    Ok(File {
        functions,
        cursor: end,
    })
}

fn function(found: DecodedFunctionEnvelope) -> Function {
    let (start, code, name) = (found.name_offset, found.code_slice, found.name.clone());
    let span = Span {
        start: start + 2,
        len: name.len(),
        chars: characters(&name),
        next: start + 2 + name.len(),
    };
    let head = Head {
        name: span,
        code: found.code_offset,
        size: found.code_len,
    };
    Function {
        start,
        head,
        name,
        block: block::answer(code, semcode_decode::block_of(found)),
    }
}

/// Whether `decode_semcode` itself answers as the loop that was taken from it, on a file of these functions; none where a file of this
/// revision has more than a magic before them, or has none.
pub fn held(functions: &[u8], revision: u16) -> Option<bool> {
    if revision > 22 {
        return None;
    }
    let header = supported_headers().iter().find(|h| h.rev == revision)?;
    let file = [&header.magic[..], functions].concat();
    let whole = semcode_decode::decode_semcode(&file).map(|decoded| decoded.functions);
    Some(whole == functions_from(&file, header.magic.len(), revision))
}

//! All functions of a file.

use super::{
    Block, CallableSignature, DecodeError, DecodedAccessPath, DecodedDebugSymbol,
    MAX_DEBUG_SYMBOLS_PER_FUNCTION, MAX_FUNCTIONS, MAX_SIGNATURE_PARAMETERS_PER_FUNCTION,
    MAX_STRING_LEN, MAX_STRINGS_PER_FUNCTION, parse_string_table_debug_and_ownership,
};
use crate::calls::{self, BlockTables};
use crate::messages;
use crate::raw;
use crate::read;

/// A function of a file.
#[derive(Debug, Clone, PartialEq, Eq)]
pub struct DecodedFunctionEnvelope<'a> {
    /// Its name, of 1 to 1,024 bytes, control characters among them.
    pub name: String,
    /// The place of its name's length in the file.
    pub name_offset: usize,
    /// The place of its block in the file.
    pub code_offset: usize,
    /// How long its block is.
    pub code_len: usize,
    /// The strings.
    pub strings: Vec<String>,
    /// The debug symbols.
    pub debug_symbols: Vec<DecodedDebugSymbol>,
    /// The paths that are borrowed, in the block's order.
    pub borrowed_paths: Vec<DecodedAccessPath>,
    /// The paths that are written, in the block's order.
    pub write_paths: Vec<DecodedAccessPath>,
    /// Whether OWN0 was found.
    pub has_ownership_section: bool,
    /// Whether DBG0 was found.
    pub has_debug_section: bool,
    /// The place in the block after the strings.
    pub string_table_end_offset: usize,
    /// The signature, from revision 20 on.
    pub signature: Option<CallableSignature>,
    /// The place in the block after all of these.
    pub instr_start_offset: usize,
    /// The block.
    pub code_slice: &'a [u8],
}

/// Decodes all functions from a cursor to the end of a file. A cursor at or past the end gives none.
///
/// ```
/// use falgnust::semcode_decode::{DecodeError, decode_functions};
///
/// let mut file = b"\x01\x00f\x02\x00\x00\x00\x00\x00".to_vec(); // f, with a block of no strings
/// file.extend(b"\x01\x00g\x06\x00\x00\x00\x01\x00\x02\x00hi"); // g, with one
/// let functions = decode_functions(&file, 0, 19).unwrap();
/// assert_eq!(functions[1].name, "g");
/// assert_eq!((functions[1].name_offset, functions[1].code_offset), (9, 16));
/// assert_eq!(functions[1].strings, ["hi"]);
///
/// file.push(1);
/// let error = decode_functions(&file, 0, 19).unwrap_err();
/// assert_eq!(error, DecodeError::TruncatedFunction { offset: 22, msg: "missing function name length" });
/// assert_eq!(error.number(), Some(63));
/// ```
pub fn decode_functions(
    bytes: &[u8],
    cursor: usize,
    header_rev: u16,
) -> Result<Vec<DecodedFunctionEnvelope<'_>>, DecodeError> {
    let file = File {
        bytes,
        cursor,
        header_rev,
    };
    let (answer, starts) = file.lend(|tables| {
        let answer = calls::decode_functions(
            bytes,
            cursor,
            header_rev,
            &mut tables.symbols,
            &mut tables.functions,
            BlockTables {
                strings: &mut tables.strings,
                paths: &mut tables.paths,
                families: &mut tables.families,
            },
        );
        (answer, answer.refusal)
    });
    if !answer.accepted {
        return Err(file.error(answer.refusal));
    }
    starts[..answer.functions]
        .iter()
        .map(|start| {
            let start = *start as usize;
            file.function(start, calls::read_function(bytes, start))
        })
        .collect()
}

/// A function by its number. All functions are decoded anew; none is answered where the file does not have the number (62).
pub fn function_number(
    bytes: &[u8],
    cursor: usize,
    header_rev: u16,
    number: usize,
) -> Result<Option<DecodedFunctionEnvelope<'_>>, DecodeError> {
    let file = File {
        bytes,
        cursor,
        header_rev,
    };
    let (head, starts) = file.lend(|tables| {
        let lent = BlockTables {
            strings: &mut tables.strings,
            paths: &mut tables.paths,
            families: &mut tables.families,
        };
        let functions = &mut tables.functions;
        let head = calls::function_number(bytes, cursor, header_rev, number, functions, lent);
        (head, head.refusal)
    });
    match head.refusal.number {
        0 => file.function(starts[number] as usize, head).map(Some),
        62 => Ok(None),
        _ => Err(file.error(head.refusal)),
    }
}

/// What is lent.
struct Tables {
    functions: Vec<u64>,
    strings: Vec<u64>,
    symbols: Vec<raw::DebugSymbol>,
    paths: Vec<u64>,
    families: Vec<u8>,
}

impl Tables {
    /// Room for the functions of so many bytes, and for a block of so many. An accepted function takes 9 bytes at least, and one that is
    /// refused has an entry before it is read; a string takes 2, a symbol 10, a path 7, a family 1.
    fn of(length: usize, block: usize) -> Self {
        Tables {
            functions: vec![0; MAX_FUNCTIONS.min(length / 9 + 1)],
            strings: vec![0; MAX_STRINGS_PER_FUNCTION.min(block / 2)],
            symbols: vec![Default::default(); MAX_DEBUG_SYMBOLS_PER_FUNCTION.min(block / 10)],
            paths: vec![0; (u16::MAX as usize).min(block / 7)],
            families: vec![0; MAX_SIGNATURE_PARAMETERS_PER_FUNCTION.min(block)],
        }
    }
}

/// What is decoded.
struct File<'a> {
    bytes: &'a [u8],
    cursor: usize,
    header_rev: u16,
}

impl<'a> File<'a> {
    /// The bytes from the cursor on.
    fn rest(&self) -> &'a [u8] {
        self.bytes.get(self.cursor..).unwrap_or_default()
    }

    /// The answer of a call that lends tables, and the functions' starts after it. No answer is 61: tables fitted to the bytes are lent first,
    /// and where the answer is 61 for a count that no accepted block of this length has, the longest.
    fn lend<T>(&self, call: impl Fn(&mut Tables) -> (T, raw::Refusal)) -> (T, Vec<u64>) {
        let length = self.rest().len();
        let mut tables = Tables::of(length, length);
        let (mut answer, refusal) = call(&mut tables);
        if refusal.number == 61 {
            tables = Tables::of(length, usize::MAX);
            answer = call(&mut tables).0;
        }
        (answer, tables.functions)
    }

    /// A function of an accepted file: its block is decoded by itself.
    fn function(
        &self,
        name_offset: usize,
        head: raw::Function,
    ) -> Result<DecodedFunctionEnvelope<'a>, DecodeError> {
        let code_slice = self.code(head);
        let code_offset = head.code_offset;
        let parsed =
            parse_string_table_debug_and_ownership(code_offset, code_slice, self.header_rev)?;
        Ok(DecodedFunctionEnvelope {
            name: name(self.bytes, head),
            name_offset,
            code_offset,
            code_len: head.code_len,
            strings: parsed.strings,
            debug_symbols: parsed.debug_symbols,
            borrowed_paths: parsed.borrowed_paths,
            write_paths: parsed.write_paths,
            has_ownership_section: parsed.has_ownership_section,
            has_debug_section: parsed.has_debug_section,
            string_table_end_offset: parsed.string_table_end_offset,
            signature: parsed.signature,
            instr_start_offset: parsed.instr_start_offset,
            code_slice,
        })
    }

    fn code(&self, head: raw::Function) -> &'a [u8] {
        &self.bytes[head.code_offset..head.next]
    }

    /// The original's error: the heads are read up to the one that is refused, or whose block holds the offset.
    fn error(&self, refusal: raw::Refusal) -> DecodeError {
        let offset = refusal.offset;
        if refusal.number == 65 {
            let msg = messages::message(65).to_owned();
            return DecodeError::ResourceLimit { offset, msg };
        }
        let mut at = self.cursor;
        loop {
            let head = calls::read_function(self.bytes, at);
            match head.refusal.number {
                0 if !matches!(refusal.number, 63 | 64) && offset <= head.next => {
                    let block = Block::new(head.code_offset, self.code(head), self.header_rev);
                    return block.error(refusal);
                }
                0 => at = head.next,
                63 => {
                    let msg = self.cut(at);
                    return DecodeError::TruncatedFunction { offset, msg };
                }
                _ => {
                    let msg = self.unnamed(at);
                    return DecodeError::InvalidFunctionName { offset, msg };
                }
            }
        }
    }

    /// Which of the three causes of 63 the head at a place has.
    fn cut(&self, at: usize) -> &'static str {
        let name = calls::read_u16_le(self.bytes, at);
        if !name.whole {
            return messages::NAME_LENGTH_CUT;
        }
        let code = calls::read_u32_le(self.bytes, name.next + name.value as usize);
        match code.whole {
            false => messages::CODE_LENGTH_CUT,
            true => messages::CODE_OUT_OF_BOUNDS,
        }
    }

    /// What the original says of the name at a place that has 64; one that is cut it calls no UTF-8 too.
    fn unnamed(&self, at: usize) -> &'static str {
        match calls::read_u16_le(self.bytes, at).value as usize {
            0 => messages::NAME_EMPTY,
            length if length > MAX_STRING_LEN => messages::NAME_TOO_LONG,
            _ => messages::NAME_NOT_UTF8,
        }
    }
}

#[inline]
#[allow(unsafe_code)]
fn name(bytes: &[u8], head: raw::Function) -> String {
    // SAFETY: this is the span of a name that `falgnust_read_function` or `falgnust_function_number` accepted, which is UTF-8 (`name_at` in
    // crates/semcode_functions/specs/Function.antt, refusal 64).
    unsafe { read::text(bytes, head.name.start, head.name.len) }
}

//! The tables that are lent.

use super::{
    Block, DecodeError, MAX_DEBUG_SYMBOLS_PER_FUNCTION, MAX_SIGNATURE_PARAMETERS_PER_FUNCTION,
    MAX_STRINGS_PER_FUNCTION, StringTableDebugOwnershipParse,
};
use crate::calls::{self, BlockRoom, BlockTables};
use crate::raw::{DebugSymbol, Refusal};
use crate::read::Read;
use std::mem::MaybeUninit;

/// The list and the tables that are lent for a block.
pub struct Lent<'a> {
    pub symbols: &'a mut [DebugSymbol],
    pub starts: BlockTables<'a>,
}

/// How many words are lent on the stack, and the most bytes of a block whose words are lent at all.
const NEAR: usize = 1024;
const FAR: usize = 16_384;

/// How many strings, symbols, paths and families there is room for first. All of it is written in each call, so it is little.
const FEW: usize = 8;

/// A symbol takes more time than an entry of another table.
const FEW_SYMBOLS: usize = 4;

/// Room on the stack: for all strings and families that a block can have, and for some symbols and paths.
struct Near {
    symbols: [MaybeUninit<DebugSymbol>; 64],
    strings: [MaybeUninit<u64>; MAX_STRINGS_PER_FUNCTION],
    paths: [MaybeUninit<u64>; 64],
    families: [MaybeUninit<u8>; MAX_SIGNATURE_PARAMETERS_PER_FUNCTION],
}

impl Near {
    #[inline]
    fn new() -> Self {
        Near {
            symbols: [MaybeUninit::uninit(); 64],
            strings: [MaybeUninit::uninit(); MAX_STRINGS_PER_FUNCTION],
            paths: [MaybeUninit::uninit(); 64],
            families: [MaybeUninit::uninit(); MAX_SIGNATURE_PARAMETERS_PER_FUNCTION],
        }
    }
}

/// So much room, on the stack where there is as much.
#[inline]
fn near_or_far<'a, T>(
    near: &'a mut [MaybeUninit<T>],
    far: &'a mut Vec<T>,
    count: usize,
) -> &'a mut [MaybeUninit<T>] {
    if count <= near.len() {
        return &mut near[..count];
    }
    far.reserve_exact(count);
    &mut far.spare_capacity_mut()[..count]
}

/// How many of each there is room for.
struct Rooms {
    symbols: usize,
    strings: usize,
    paths: usize,
    families: usize,
}

impl Rooms {
    fn few() -> Self {
        Rooms {
            symbols: FEW_SYMBOLS,
            strings: FEW,
            paths: FEW,
            families: FEW,
        }
    }

    /// Room for the count that was refused with 61. It ends where the refusal stands, and behind the tag of its section; that of the strings has
    /// no tag, and ends at place 2. Where the place is not known, room for the longest of each.
    fn widen(&mut self, block: &Block, refused: Refusal) {
        let count = block.count_before(refused);
        let tag = |place: usize, tag| calls::tag_at(block.code, place - 6, tag);
        match block.place(refused) {
            Some(2) => self.strings = count,
            Some(place) if tag(place, b"DBG0") => self.symbols = count,
            Some(place) if tag(place, b"OWN0") => self.paths = count,
            Some(_) => self.families = count,
            None => {
                *self = Rooms {
                    symbols: MAX_DEBUG_SYMBOLS_PER_FUNCTION,
                    strings: MAX_STRINGS_PER_FUNCTION,
                    paths: u16::MAX as usize,
                    families: MAX_SIGNATURE_PARAMETERS_PER_FUNCTION,
                }
            }
        }
    }
}

impl Block<'_> {
    /// The answer of a call that lends tables. Few entries are lent first; where a count is more, and the call refuses with 61, it is made
    /// again with room for that count. So no answer is 61.
    #[inline]
    pub fn lend<T>(&self, mut call: impl FnMut(Lent) -> Read<T>) -> Read<T> {
        let mut symbols = [DebugSymbol::default(); FEW_SYMBOLS];
        let (mut strings, mut paths, mut families) = ([0; FEW], [0; FEW], [0; FEW]);
        let answer = call(Lent {
            symbols: &mut symbols,
            starts: BlockTables {
                strings: &mut strings,
                paths: &mut paths,
                families: &mut families,
            },
        });
        match answer {
            Err(refusal) if refusal.number == 61 => self.lend_more(refusal, call),
            answer => answer,
        }
    }

    /// Each refusal is of a later count.
    #[cold]
    fn lend_more<T>(&self, refused: Refusal, mut call: impl FnMut(Lent) -> Read<T>) -> Read<T> {
        let (mut refused, mut rooms) = (refused, Rooms::few());
        loop {
            rooms.widen(self, refused);
            let answer = call(Lent {
                symbols: &mut vec![DebugSymbol::default(); rooms.symbols],
                starts: BlockTables {
                    strings: &mut vec![0; rooms.strings],
                    paths: &mut vec![0; rooms.paths],
                    families: &mut vec![0; rooms.families],
                },
            });
            match answer {
                Err(refusal) if refusal.number == 61 => refused = refusal,
                answer => return answer,
            }
        }
    }

    /// The block with its records. Its words are lent as many entries as it has bytes, since it has no more words than bytes: a string has 2 bytes and 2
    /// words at least, a symbol 10 and 3, a path 7 and 4, a component 3 and 1. Of a longer block fewer are lent first, which do for most; one that has
    /// more is read again with as many as it has bytes, and a long one by its tables, since so much room would be far.
    #[inline]
    pub fn parse(&self) -> Result<StringTableDebugOwnershipParse, DecodeError> {
        let bytes = self.code.len();
        if bytes > FAR {
            return self.by_tables();
        }
        let mut near = [MaybeUninit::uninit(); NEAR];
        self.by_words(&mut near[..bytes.min(NEAR)], || self.by_many_words())
    }

    /// The same by as many words as it has bytes.
    #[cold]
    #[inline(never)]
    fn by_many_words(&self) -> Result<StringTableDebugOwnershipParse, DecodeError> {
        let mut far = Vec::with_capacity(self.code.len());
        self.by_words(far.spare_capacity_mut(), || self.by_tables())
    }

    /// The same by its words, or what follows where they do not fit.
    #[inline(always)]
    fn by_words(
        &self,
        room: &mut [MaybeUninit<u64>],
        short: impl FnOnce() -> Result<StringTableDebugOwnershipParse, DecodeError>,
    ) -> Result<StringTableDebugOwnershipParse, DecodeError> {
        calls::block_words_in(
            self.base_offset,
            self.code,
            self.header_rev,
            room,
            |answer, words| match answer.refusal.number {
                0 => Ok(self.of_words(answer, words)),
                61 => short(),
                _ => Err(self.error(answer.refusal)),
            },
        )
    }

    /// The same by the starts of its records. What a refusal's message says is asked for when their room has been given back.
    #[cold]
    #[inline(never)]
    fn by_tables(&self) -> Result<StringTableDebugOwnershipParse, DecodeError> {
        self.in_rooms().map_err(|refusal| self.error(refusal))
    }

    /// The same in room that need not be written before: few of each, and more where that is refused.
    fn in_rooms(&self) -> Read<StringTableDebugOwnershipParse> {
        let mut rooms = Rooms::few();
        let mut near = Near::new();
        let (mut symbols, mut paths) = (Vec::new(), Vec::new());
        loop {
            let room = BlockRoom {
                symbols: near_or_far(&mut near.symbols, &mut symbols, rooms.symbols),
                strings: &mut near.strings[..rooms.strings],
                paths: near_or_far(&mut near.paths, &mut paths, rooms.paths),
                families: &mut near.families[..rooms.families],
            };
            match self.parse_in(room) {
                Err(refusal) if refusal.number == 61 => rooms.widen(self, refusal),
                parse => return parse,
            }
        }
    }

    #[inline(always)]
    fn parse_in(&self, room: BlockRoom) -> Read<StringTableDebugOwnershipParse> {
        calls::parse_string_table_debug_and_ownership_in(
            self.base_offset,
            self.code,
            self.header_rev,
            room,
            |answer, lists| match answer.accepted {
                true => Ok(self.records(answer, lists)),
                false => Err(answer.refusal),
            },
        )
    }

    /// Where in the block a refusal stands; an offset that is held at 2^64 - 1 does not say.
    fn place(&self, refusal: Refusal) -> Option<usize> {
        let Refusal { offset, .. } = refusal;
        (offset != usize::MAX).then(|| offset - self.base_offset)
    }

    /// The count that was refused ends where the refusal stands; the largest where that is not known.
    pub fn count_before(&self, refusal: Refusal) -> usize {
        self.place(refusal).map_or(u16::MAX as usize, |end| {
            calls::read_u16_le(self.code, end - 2).value as usize
        })
    }
}

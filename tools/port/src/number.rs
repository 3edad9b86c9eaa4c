//! The records of a block by number.

use crate::block::{self, Head};
use crate::text;
use answers::Answer;
use answers::block::{Component, Symbol};
use answers::text::Span;
use falgnust::calls::{self, BlockTables};

/// A block and the tables lent for it.
pub struct Lent<'a> {
    pub base_offset: usize,
    pub code: &'a [u8],
    pub header_rev: u16,
    pub strings: &'a mut [u64],
    pub paths: &'a mut [u64],
    pub families: &'a mut [u8],
}

impl Lent<'_> {
    /// A record by its number, as one of `calls` reads it.
    fn call<T>(
        &mut self,
        read: fn(usize, &[u8], u16, usize, BlockTables) -> T,
        number: usize,
    ) -> T {
        let tables = BlockTables {
            strings: self.strings,
            paths: self.paths,
            families: self.families,
        };
        read(self.base_offset, self.code, self.header_rev, number, tables)
    }

    pub fn string(&mut self, number: usize) -> Answer<Span> {
        text::answer(self.call(calls::string_number, number))
    }

    pub fn symbol(&mut self, number: usize) -> Answer<(Symbol, usize)> {
        block::symbol(self.call(calls::symbol_number, number))
    }

    pub fn path(&mut self, number: usize) -> Answer<Head> {
        block::path(self.call(calls::path_number, number))
    }

    /// A component of a path.
    pub fn component(&mut self, number: usize, component: usize) -> Answer<(Component, usize)> {
        let tables = BlockTables {
            strings: self.strings,
            paths: self.paths,
            families: self.families,
        };
        block::component(calls::component_number(
            self.base_offset,
            self.code,
            self.header_rev,
            number,
            component,
            tables,
        ))
    }
}

//! Function tables. Places are places in the block.

/// The result: four counts, whether each tag was found, and places.
#[derive(Debug, Clone, Copy, PartialEq, Eq)]
pub struct Layout {
    pub strings: usize,
    pub strings_end: usize,
    pub has_debug: bool,
    pub symbols: usize,
    pub symbols_start: usize,
    pub has_ownership: bool,
    pub paths: usize,
    pub has_signature: bool,
    pub families: usize,
    pub families_start: usize,
    pub instructions: usize,
}

#[derive(Debug, Clone, PartialEq, Eq)]
pub struct Block {
    pub layout: Layout,
    /// The places of the strings' lengths, and the strings.
    pub string_starts: Vec<u64>,
    pub strings: Vec<String>,
    pub symbols: Vec<Symbol>,
    /// The places of the paths' event kinds, and the paths.
    pub path_starts: Vec<u64>,
    pub paths: Vec<Path>,
    /// The parameters' families, as bytes.
    pub families: Vec<u8>,
}

#[derive(Debug, Clone, Copy, PartialEq, Eq)]
pub struct Symbol {
    pub pc: usize,
    pub line: u32,
    pub column: u16,
}

#[derive(Debug, Clone, PartialEq, Eq)]
pub struct Path {
    pub event: Event,
    pub root: u32,
    pub components: Vec<Component>,
}

#[derive(Debug, Clone, Copy, PartialEq, Eq)]
pub enum Event {
    Borrow(Activation),
    Write(Execution),
}

#[derive(Debug, Clone, Copy, PartialEq, Eq)]
pub enum Activation {
    None,
    FrameEntry,
    StoreSite(u32),
}

#[derive(Debug, Clone, Copy, PartialEq, Eq)]
pub enum Execution {
    None,
    StoreSite(u32),
    RecordSite(u32),
}

#[derive(Debug, Clone, Copy, PartialEq, Eq)]
pub enum Component {
    TupleIndex(u16),
    FieldSymbol(u32),
    Variant { variant: u32, index: u16 },
    SequenceIndex(u32),
}

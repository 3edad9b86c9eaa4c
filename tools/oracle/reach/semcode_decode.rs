
pub struct Block {
    pub strings: Vec<String>,
    pub debug_symbols: Vec<DecodedDebugSymbol>,
    pub borrowed_paths: Vec<DecodedAccessPath>,
    pub write_paths: Vec<DecodedAccessPath>,
    pub has_debug_section: bool,
    pub has_ownership_section: bool,
    pub string_table_end_offset: usize,
    pub signature: Option<CallableSignature>,
    pub instr_start_offset: usize,
}

/// `parse_string_table_debug_and_ownership`.
pub fn block(base_offset: usize, code: &[u8], header_rev: u16) -> Result<Block, DecodeError> {
    let parsed = parse_string_table_debug_and_ownership(base_offset, code, header_rev)?;
    Ok(Block {
        strings: parsed.strings,
        debug_symbols: parsed.debug_symbols,
        borrowed_paths: parsed.borrowed_paths,
        write_paths: parsed.write_paths,
        has_debug_section: parsed.has_debug_section,
        has_ownership_section: parsed.has_ownership_section,
        string_table_end_offset: parsed.string_table_end_offset,
        signature: parsed.signature,
        instr_start_offset: parsed.instr_start_offset,
    })
}

/// The tables of a function's block.
pub fn block_of(function: DecodedFunctionEnvelope) -> Block {
    Block {
        strings: function.strings,
        debug_symbols: function.debug_symbols,
        borrowed_paths: function.borrowed_paths,
        write_paths: function.write_paths,
        has_debug_section: function.has_debug_section,
        has_ownership_section: function.has_ownership_section,
        string_table_end_offset: function.string_table_end_offset,
        signature: function.signature,
        instr_start_offset: function.instr_start_offset,
    }
}

//! A block through the crate that callers link, as a short one and as a long one: the records of the Rust's vectors, or its error with message and number.

use crate::block_compare::what;
use crate::tally::Tally;
use falgnust::semcode_decode as port;
use inputs::cases::BlockCase;
use oracle::local_format as rust_format;
use oracle::semcode_decode as rust;

/// The fewest bytes of a block that is long to the crate.
const LONG: usize = 16_385;

/// An answer in the Rust's own types, with document 01's number of an error.
pub type Told<T> = Result<T, (rust::DecodeError, Option<u8>)>;

pub fn rust_told<T>(answer: Result<T, rust::DecodeError>) -> Told<T> {
    answer.map_err(|error| {
        let number = oracle::messages::of_block(error.clone()).number;
        (error, Some(number))
    })
}

pub fn told<T>(answer: Result<T, port::DecodeError>) -> Told<T> {
    answer.map_err(|error| {
        let number = error.number();
        (rust_error(error), number)
    })
}

fn rust_error(error: port::DecodeError) -> rust::DecodeError {
    match error {
        port::DecodeError::InvalidStringTable { offset, msg } => {
            rust::DecodeError::InvalidStringTable { offset, msg }
        }
        port::DecodeError::InvalidDebugSection { offset, msg } => {
            rust::DecodeError::InvalidDebugSection { offset, msg }
        }
        port::DecodeError::InvalidOwnershipSection { offset, msg } => {
            rust::DecodeError::InvalidOwnershipSection { offset, msg }
        }
        port::DecodeError::InvalidSignatureSection { offset, msg } => {
            rust::DecodeError::InvalidSignatureSection { offset, msg }
        }
        port::DecodeError::ResourceLimit { offset, msg } => {
            rust::DecodeError::ResourceLimit { offset, msg }
        }
        port::DecodeError::TruncatedFunction { offset, msg } => {
            rust::DecodeError::TruncatedFunction { offset, msg }
        }
        port::DecodeError::InvalidFunctionName { offset, msg } => {
            rust::DecodeError::InvalidFunctionName { offset, msg }
        }
        other => panic!("not an error of functions: {other:?}"),
    }
}

/// All fields of the Rust's result.
#[derive(Debug, PartialEq)]
struct Fields {
    strings: Vec<String>,
    debug_symbols: Vec<rust::DecodedDebugSymbol>,
    borrowed_paths: Vec<rust::DecodedAccessPath>,
    write_paths: Vec<rust::DecodedAccessPath>,
    has: [bool; 2],
    signature: Option<rust_format::CallableSignature>,
    places: [usize; 2],
}

/// With instructions behind it, so that the crate reads it as a long block.
pub fn compare_long(tally: &mut Tally, case: &BlockCase) {
    let BlockCase { base, revision, .. } = *case;
    let mut code = case.code.clone();
    code.resize(code.len().max(LONG), 0x44);
    compare(
        tally,
        &BlockCase {
            code,
            base,
            revision,
        },
    );
}

pub fn compare(tally: &mut Tally, case: &BlockCase) {
    let BlockCase {
        ref code,
        base,
        revision,
    } = *case;
    let rust = rust_told(rust::block(base, code, revision)).map(|b| Fields {
        strings: b.strings,
        debug_symbols: b.debug_symbols,
        borrowed_paths: b.borrowed_paths,
        write_paths: b.write_paths,
        has: [b.has_debug_section, b.has_ownership_section],
        signature: b.signature,
        places: [b.string_table_end_offset, b.instr_start_offset],
    });
    let port = port::parse_string_table_debug_and_ownership(base, code, revision);
    let port = told(port).map(|b| Fields {
        strings: b.strings,
        debug_symbols: b.debug_symbols.into_iter().map(symbol).collect(),
        borrowed_paths: b.borrowed_paths.into_iter().map(path).collect(),
        write_paths: b.write_paths.into_iter().map(path).collect(),
        has: [b.has_debug_section, b.has_ownership_section],
        signature: b.signature.map(signature),
        places: [b.string_table_end_offset, b.instr_start_offset],
    });
    tally.same(&rust, &port, || format!("the binding, {}", what(case)));
}

/// By the name of each family.
pub fn signature(s: port::CallableSignature) -> rust_format::CallableSignature {
    let family = |family: port::CallableValueFamily| {
        let rust = rust_format::CallableValueFamily::from_byte(family.byte());
        let rust = rust.expect("a family of the Rust");
        assert_eq!(format!("{family:?}"), format!("{rust:?}"));
        rust
    };
    rust_format::CallableSignature {
        families: s.families.into_iter().map(family).collect(),
    }
}

pub fn symbol(s: port::DecodedDebugSymbol) -> rust::DecodedDebugSymbol {
    let port::DecodedDebugSymbol { pc, line, col } = s;
    rust::DecodedDebugSymbol { pc, line, col }
}

pub fn path(p: port::DecodedAccessPath) -> rust::DecodedAccessPath {
    let port::DecodedAccessPath {
        root_symbol_id,
        components,
        activation,
        write_execution,
    } = p;
    rust::DecodedAccessPath {
        root_symbol_id,
        components: components.into_iter().map(component).collect(),
        activation: activation.map(|a| match a {
            port::DecodedBorrowActivation::FrameEntry => rust::DecodedBorrowActivation::FrameEntry,
            port::DecodedBorrowActivation::StoreVarSite(site) => {
                rust::DecodedBorrowActivation::StoreVarSite(site)
            }
        }),
        write_execution: write_execution.map(|w| match w {
            port::DecodedWriteExecution::StoreVarSite(site) => {
                rust::DecodedWriteExecution::StoreVarSite(site)
            }
            port::DecodedWriteExecution::MakeRecordSite(site) => {
                rust::DecodedWriteExecution::MakeRecordSite(site)
            }
        }),
    }
}

fn component(c: port::DecodedAccessPathComponent) -> rust::DecodedAccessPathComponent {
    match c {
        port::DecodedAccessPathComponent::TupleIndex(index) => {
            rust::DecodedAccessPathComponent::TupleIndex(index)
        }
        port::DecodedAccessPathComponent::FieldSymbol(field) => {
            rust::DecodedAccessPathComponent::FieldSymbol(field)
        }
        port::DecodedAccessPathComponent::AdtPayload { variant, index } => {
            rust::DecodedAccessPathComponent::AdtPayload { variant, index }
        }
        port::DecodedAccessPathComponent::SequenceIndexStatic(index) => {
            rust::DecodedAccessPathComponent::SequenceIndexStatic(index)
        }
    }
}

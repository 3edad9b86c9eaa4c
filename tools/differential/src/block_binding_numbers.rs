//! The records of a block by number, through the crate that callers link.

use crate::block_binding::{Told, rust_told, told};
use crate::block_compare::what;
use crate::block_numbers::{NOT_THERE, past};
use crate::tally::Tally;
use answers::Answer;
use answers::block::{Activation, Block, Component, Event, Execution, Path, Symbol};
use falgnust::semcode_decode as port;
use inputs::cases::BlockCase;
use oracle::semcode_decode as rust;
use std::fmt::Debug;

/// A record by its number: none is 62.
fn same_number<T: PartialEq + Debug>(
    tally: &mut Tally,
    case: &BlockCase,
    name: &str,
    expected: Answer<T>,
    port: Result<Option<T>, port::DecodeError>,
) {
    let rust: Told<Option<T>> = match expected {
        Ok(value) => Ok(Some(value)),
        Err(refusal) if refusal.number == 62 => Ok(None),
        Err(_) => rust_told(rust::block(case.base, &case.code, case.revision).map(|_| None)),
    };
    tally.same(&rust, &told(port), || {
        format!("the binding, {name}, {}", what(case))
    });
}

/// Every record, and numbers past their end.
pub fn compare(tally: &mut Tally, case: &BlockCase, rust: &Answer<Block>) {
    let BlockCase {
        ref code,
        base,
        revision,
    } = *case;
    let counts = match rust {
        Ok(b) => [b.strings.len(), b.symbols.len(), b.paths.len()],
        Err(_) => [0; 3],
    };
    for number in past(counts[0]) {
        let expected = value(rust, |b| b.strings.get(number).cloned());
        let port = port::string_number(base, code, revision, number);
        same_number(tally, case, "string by number", expected, port);
    }
    for number in past(counts[1]) {
        let expected = value(rust, |b| b.symbols.get(number).copied());
        let port = port::symbol_number(base, code, revision, number);
        let port = port.map(|found| {
            found.map(|s| Symbol {
                pc: s.pc,
                line: s.line,
                column: s.col,
            })
        });
        same_number(tally, case, "symbol by number", expected, port);
    }
    for number in past(counts[2]) {
        let expected = value(rust, |b| b.paths.get(number).cloned());
        let port = port::path_number(base, code, revision, number);
        let port = port.map(|found| found.map(numbered));
        let components = expected.as_ref().map_or(0, |p| p.components.len());
        same_number(tally, case, "path by number", expected, port);
        for place in past(components) {
            let expected = value(rust, |b| {
                b.paths.get(number)?.components.get(place).copied()
            });
            let port = port::component_number(base, code, revision, number, place);
            let port = port.map(|found| found.map(answer_component));
            same_number(tally, case, "component by number", expected, port);
        }
    }
}

fn value<T>(rust: &Answer<Block>, of: impl FnOnce(&Block) -> Option<T>) -> Answer<T> {
    let block = rust.as_ref().map_err(|refusal| *refusal)?;
    of(block).ok_or(NOT_THERE)
}

fn numbered(event: port::DecodedEvent) -> Path {
    let (event, path) = match event {
        port::DecodedEvent::Borrow(path) => {
            let activation = match path.activation {
                None => Activation::None,
                Some(port::DecodedBorrowActivation::FrameEntry) => Activation::FrameEntry,
                Some(port::DecodedBorrowActivation::StoreVarSite(s)) => Activation::StoreSite(s),
            };
            (Event::Borrow(activation), path)
        }
        port::DecodedEvent::Write(path) => {
            let execution = match path.write_execution {
                None => Execution::None,
                Some(port::DecodedWriteExecution::StoreVarSite(s)) => Execution::StoreSite(s),
                Some(port::DecodedWriteExecution::MakeRecordSite(s)) => Execution::RecordSite(s),
            };
            (Event::Write(execution), path)
        }
    };
    Path {
        event,
        root: path.root_symbol_id,
        components: path.components.into_iter().map(answer_component).collect(),
    }
}

fn answer_component(c: port::DecodedAccessPathComponent) -> Component {
    match c {
        port::DecodedAccessPathComponent::TupleIndex(index) => Component::TupleIndex(index),
        port::DecodedAccessPathComponent::FieldSymbol(field) => Component::FieldSymbol(field),
        port::DecodedAccessPathComponent::AdtPayload { variant, index } => {
            Component::Variant { variant, index }
        }
        port::DecodedAccessPathComponent::SequenceIndexStatic(index) => {
            Component::SequenceIndex(index)
        }
    }
}

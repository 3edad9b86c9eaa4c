//! Answers as lines of text.

use crate::block::block;
use crate::functions::functions;
use crate::marks::marks;
use crate::records::DecodedEvr0;
use crate::rules::load;
use crate::section::Judge;
use answers::Answer;
use answers::block::{Activation, Block, Component, Event, Execution, Path};
use answers::refusal::{Kind, Refusal};
use answers::section::Section;
use answers::text::Span;
use std::fmt::Display;

pub fn hex(bytes: &[u8]) -> String {
    bytes.iter().map(|byte| format!("{byte:02x}")).collect()
}

fn list<T: Display>(items: impl IntoIterator<Item = T>) -> String {
    let items: Vec<String> = items.into_iter().map(|item| item.to_string()).collect();
    items.join(",")
}

pub fn span_line(s: Span) -> String {
    format!(
        "start={} len={} chars={} next={}",
        s.start, s.len, s.chars, s.next
    )
}

/// From the Rust, and for schema 2 from the model.
pub fn section_line(bytes: &[u8], cursor: usize) -> Answer<String> {
    let (s, decoded) = Judge::Rust.of(bytes, cursor).section(bytes, cursor)?;
    Ok(section_fields(&s, &decoded))
}

/// Of a section by the rules of a table, or the table's refusal: from the model and the plain lines.
pub fn ruled_line(table: &[u8], bytes: &[u8], cursor: usize) -> Answer<String> {
    let rules = load(table).map_err(|(number, _)| Refusal {
        kind: Kind::Added,
        number,
        offset: 0,
    })?;
    let judge = Judge::Ruled(&rules).of(bytes, cursor);
    let (s, decoded) = judge.section(bytes, cursor)?;
    Ok(section_fields(&s, &decoded))
}

fn section_fields(s: &Section, decoded: &DecodedEvr0) -> String {
    format!(
        "cursor={} counts={} depths={} marks={} propositions={} proofs={} policy={} issuer={} policy_chars={} \
         issuer_chars={} epoch={} schema={} starts={} ends={} \
         source_set={} compiler_contract={}",
        s.cursor,
        list(s.head.counts),
        list(&s.tables.depths),
        list(marks(decoded)),
        list(&s.tables.propositions),
        list(&s.tables.proofs),
        s.head.policy,
        s.head.issuer,
        s.head.policy_chars,
        s.head.issuer_chars,
        s.head.epoch,
        s.head.schema,
        list(decoded.witnesses.iter().map(|w| w.source_start)),
        list(decoded.witnesses.iter().map(|w| w.source_end)),
        hex(&s.head.source_set),
        hex(&s.head.compiler_contract),
    )
}

pub fn block_line(bytes: &[u8], base: usize, revision: u16) -> Answer<String> {
    block(bytes, base, revision).map(|b| block_fields(&b))
}

fn block_fields(b: &Block) -> String {
    let strings = b.strings.iter().zip(&b.string_starts);
    let paths = b.paths.iter().zip(&b.path_starts);
    format!(
        "counts={},{},{} debug={} ownership={} strings_end={} symbols_start={} signature={} \
         families_start={} instructions={} strings={} symbols={} paths={} families={}",
        b.layout.strings,
        b.layout.symbols,
        b.layout.paths,
        b.layout.has_debug,
        b.layout.has_ownership,
        b.layout.strings_end,
        b.layout.symbols_start,
        b.layout.has_signature,
        b.layout.families_start,
        b.layout.instructions,
        list(strings.map(|(text, start)| format!("{start}:{}", hex(text.as_bytes())))),
        list(
            b.symbols
                .iter()
                .map(|s| format!("{}:{}:{}", s.pc, s.line, s.column))
        ),
        list(paths.map(|(path, start)| format!("{start}:{}", path_item(path)))),
        list(&b.families),
    )
}

/// start:name:characters:block:length of each function, and the last one's block.
pub fn functions_line(bytes: &[u8], cursor: usize, revision: u16) -> Answer<String> {
    let file = functions(bytes, cursor, revision)?;
    let heads = file.functions.iter().map(|f| {
        let head = f.head;
        let name = hex(f.name.as_bytes());
        format!(
            "{}:{name}:{}:{}:{}",
            f.start, head.name.chars, head.code, head.size
        )
    });
    let last = file.functions.last().map(|f| block_fields(&f.block));
    Ok(format!(
        "cursor={} functions={} {}",
        file.cursor,
        list(heads),
        last.unwrap_or_default()
    ))
}

/// event:root[components]
fn path_item(path: &Path) -> String {
    let event = match path.event {
        Event::Borrow(Activation::None) => "borrow".to_string(),
        Event::Borrow(Activation::FrameEntry) => "borrow-frame-entry".to_string(),
        Event::Borrow(Activation::StoreSite(site)) => format!("borrow-store-site-{site}"),
        Event::Write(Execution::None) => "write".to_string(),
        Event::Write(Execution::StoreSite(site)) => format!("write-store-site-{site}"),
        Event::Write(Execution::RecordSite(site)) => format!("write-record-site-{site}"),
    };
    let components: Vec<String> = path.components.iter().map(component_item).collect();
    format!("{event}:{}[{}]", path.root, components.join(" "))
}

fn component_item(component: &Component) -> String {
    match component {
        Component::TupleIndex(index) => format!("tuple-{index}"),
        Component::FieldSymbol(field) => format!("field-{field}"),
        Component::Variant { variant, index } => format!("variant-{variant}-{index}"),
        Component::SequenceIndex(index) => format!("sequence-{index}"),
    }
}

//! The tables of a block, for a person and for a script.

use crate::json::{Json, list};
use crate::paint::{Paint, Style};
use crate::table::{Cell, Table, number, text};
use crate::text::shown;
use falgnust::semcode_decode::{
    CallableSignature as Signature, DecodedAccessPath as Path,
    DecodedAccessPathComponent as Component, DecodedBorrowActivation as Activation,
    DecodedDebugSymbol as Symbol, DecodedWriteExecution as Execution,
};

pub struct Tables<'a> {
    pub strings: &'a [String],
    pub debug_symbols: &'a [Symbol],
    pub borrowed: &'a [Path],
    pub written: &'a [Path],
    /// From revision 20 on.
    pub signature: Option<&'a Signature>,
    /// Where the instructions start in the block.
    pub instructions: usize,
}

impl Tables<'_> {
    /// For a person.
    pub fn lines(&self, paint: Paint) -> String {
        let strings = self.strings.iter().enumerate();
        let strings = Table {
            title: "Strings",
            names: ["number", "string"],
            rows: strings.map(string_row).collect(),
        };
        let symbols = Table {
            title: "Debug symbols",
            names: ["pc", "line", "column"],
            rows: self.debug_symbols.iter().map(symbol_row).collect(),
        };
        let borrowed = self.borrowed.iter().map(|path| path_row("borrow", path));
        let written = self.written.iter().map(|path| path_row("write", path));
        let paths = Table {
            title: "Paths",
            names: ["event", "root", "when", "components"],
            rows: borrowed.chain(written).collect(),
        };
        let tables = [
            strings.lines(paint),
            symbols.lines(paint),
            paths.lines(paint),
        ];
        let start = format!(
            "\nInstructions start at {} in the block\n",
            self.instructions
        );
        tables.concat() + &self.parameters(paint) + &start
    }

    fn parameters(&self, paint: Paint) -> String {
        let Some(families) = families(self.signature) else {
            return String::new();
        };
        let listed = match families.is_empty() {
            true => "none".to_owned(),
            false => families.join(", "),
        };
        format!("\n{}\n  {listed}\n", paint.text(Style::Bold, "Parameters"))
    }

    /// For a script.
    pub fn json(&self) -> [(&'static str, Json); 6] {
        [
            ("strings", list(self.strings.iter().map(String::as_str))),
            (
                "debug_symbols",
                list(self.debug_symbols.iter().map(symbol_json)),
            ),
            ("borrowed", list(self.borrowed.iter().map(path_json))),
            ("written", list(self.written.iter().map(path_json))),
            (
                "parameters",
                families(self.signature).map_or(Json::Null, list),
            ),
            ("instructions", self.instructions.into()),
        ]
    }
}

/// What each parameter is at run time.
fn families(signature: Option<&Signature>) -> Option<Vec<String>> {
    let families = signature?.families.iter();
    Some(families.map(|family| format!("{family:?}")).collect())
}

fn string_row((at, string): (usize, &String)) -> [Cell; 2] {
    [number(at), text(shown(string))]
}

fn symbol_row(symbol: &Symbol) -> [Cell; 3] {
    [number(symbol.pc), number(symbol.line), number(symbol.col)]
}

fn path_row(event: &str, path: &Path) -> [Cell; 4] {
    let components: Vec<String> = path.components.iter().map(component).collect();
    [
        text(event),
        number(path.root_symbol_id),
        text(when(path)),
        text(components.join(", ")),
    ]
}

fn symbol_json(symbol: &Symbol) -> Json {
    Json::Object(vec![
        ("pc", symbol.pc.into()),
        ("line", symbol.line.into()),
        ("column", symbol.col.into()),
    ])
}

fn path_json(path: &Path) -> Json {
    Json::Object(vec![
        ("root", path.root_symbol_id.into()),
        ("when", when(path).into()),
        ("components", list(path.components.iter().map(component))),
    ])
}

/// When a borrow begins, or where a write is done; nothing below revision 21.
fn when(path: &Path) -> String {
    let borrow = path.activation.map(|activation| match activation {
        Activation::FrameEntry => "on entry".to_owned(),
        Activation::StoreVarSite(site) => format!("store site {site}"),
    });
    let write = path.write_execution.map(|execution| match execution {
        Execution::StoreVarSite(site) => format!("store site {site}"),
        Execution::MakeRecordSite(site) => format!("record site {site}"),
    });
    borrow.or(write).unwrap_or_default()
}

pub fn component(component: &Component) -> String {
    match component {
        Component::TupleIndex(index) => format!("tuple index {index}"),
        Component::FieldSymbol(symbol) => format!("field {symbol}"),
        Component::AdtPayload { variant, index } => format!("variant {variant} index {index}"),
        Component::SequenceIndexStatic(index) => format!("sequence index {index}"),
    }
}

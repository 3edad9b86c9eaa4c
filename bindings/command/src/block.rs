//! `falgnust block`: the tables of one function's block.

use crate::Stop;
use crate::args::Args;
use crate::json::Json;
use crate::paint::Paint;
use crate::refusal::Refusal;
use crate::source::Source;
use falgnust::semcode_decode::parse_string_table_debug_and_ownership;
use std::io;

mod tables;
pub use tables::{Tables, component};

/// The headings of docs/REFUSALS.md that speak of blocks.
const HEADINGS: &[&str] = &["Blocks"];

pub fn run(mut args: Args, answer: &mut Vec<u8>) -> Result<(), Stop> {
    let revision = revision(&mut args)?;
    let is_script = args.flag("--json");
    let source = Source::read(&args.last("file")?)?;
    match shown(&source, revision, is_script) {
        Ok(shown) => answer.extend(shown.bytes()),
        Err(refusal) => refusal.of(source, HEADINGS).end(is_script, answer)?,
    }
    Ok(())
}

/// The revision, which no command can do without.
pub fn revision(args: &mut Args) -> Result<u16, Stop> {
    let why = "--revision N is missing: one more than the number in the file's magic, so 22 behind SEMCOD21";
    let given = args.number("--revision")?;
    given.ok_or_else(|| Stop::Failed(why.to_owned()))
}

fn shown(source: &Source, revision: u16, is_script: bool) -> Result<String, Refusal> {
    let block = parse_string_table_debug_and_ownership(0, &source.bytes, revision)?;
    let tables = Tables {
        strings: &block.strings,
        debug_symbols: &block.debug_symbols,
        borrowed: &block.borrowed_paths,
        written: &block.write_paths,
        signature: block.signature.as_ref(),
        instructions: block.instr_start_offset,
    };
    if is_script {
        let accepted = ("accepted", true.into());
        let fields = std::iter::once(accepted).chain(tables.json());
        return Ok(format!("{}\n", Json::Object(fields.collect())));
    }
    let paint = Paint::of(&io::stdout());
    Ok(tables.lines(paint).trim_start().to_owned())
}

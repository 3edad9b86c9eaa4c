//! `falgnust functions`: the functions of a file.

use crate::Stop;
use crate::args::Args;
use crate::block::{self, Tables};
use crate::json::{Json, list};
use crate::paint::{Paint, Style};
use crate::refusal::Refusal;
use crate::source::Source;
use crate::text::{count, shown, thousands};
use falgnust::semcode_decode::{
    DecodedFunctionEnvelope as Function, decode_functions, function_number,
};
use std::io;

/// The headings of docs/REFUSALS.md that speak of files of functions, whose blocks are refused as a block by itself is.
const HEADINGS: &[&str] = &["Files of functions", "Blocks"];

/// The bytes of a magic.
const MAGIC: usize = 8;

pub fn run(mut args: Args, answer: &mut Vec<u8>) -> Result<(), Stop> {
    let revision = block::revision(&mut args)?;
    let at = args.number("--at")?.unwrap_or(MAGIC);
    let asked = args.number("--function")?;
    let is_script = args.flag("--json");
    let source = Source::read(&args.last("file")?)?;
    match decoded(&source.bytes, at, revision, asked) {
        Ok(functions) => {
            let first = asked.unwrap_or(0);
            let shown = match is_script {
                true => script(&functions, first),
                false => lines(&functions, first, &source.name),
            };
            answer.extend(shown.bytes());
        }
        Err(refusal) => refusal.of(source, HEADINGS).end(is_script, answer)?,
    }
    Ok(())
}

/// All functions, or the one that is asked for.
fn decoded(
    bytes: &[u8],
    at: usize,
    revision: u16,
    asked: Option<usize>,
) -> Result<Vec<Function<'_>>, Refusal> {
    match asked {
        None => Ok(decode_functions(bytes, at, revision)?),
        Some(number) => {
            let function = function_number(bytes, at, revision, number)?;
            Ok(vec![function.ok_or(Refusal::NO_SUCH_NUMBER)?])
        }
    }
}

fn tables<'a>(function: &'a Function) -> Tables<'a> {
    Tables {
        strings: &function.strings,
        debug_symbols: &function.debug_symbols,
        borrowed: &function.borrowed_paths,
        written: &function.write_paths,
        signature: function.signature.as_ref(),
        instructions: function.instr_start_offset,
    }
}

fn lines(functions: &[Function], first: usize, name: &str) -> String {
    let paint = Paint::of(&io::stdout());
    let accepted = paint.text(Style::Green, "accepted");
    let mut lines = format!(
        "{accepted}: {name:?}, {}\n",
        count(functions.len(), "function")
    );
    for (number, function) in (first..).zip(functions) {
        let title = paint.text(Style::Bold, &format!("Function {number}"));
        lines += &format!(
            "\n{title}: {}\n  head at {}, block of {} at {}\n",
            shown(&function.name),
            thousands(function.name_offset),
            count(function.code_len, "byte"),
            thousands(function.code_offset),
        );
        let tables = tables(function).lines(paint);
        lines += &tables
            .lines()
            .map(|line| format!("  {line}").trim_end().to_owned() + "\n")
            .collect::<String>();
    }
    lines
}

fn script(functions: &[Function], first: usize) -> String {
    let each = (first..).zip(functions).map(|(number, function)| {
        let mut fields = vec![
            ("number", number.into()),
            ("name", function.name.as_str().into()),
            ("name_offset", function.name_offset.into()),
            ("code_offset", function.code_offset.into()),
            ("code_len", function.code_len.into()),
        ];
        fields.extend(tables(function).json());
        Json::Object(fields)
    });
    let object = Json::Object(vec![("accepted", true.into()), ("functions", list(each))]);
    format!("{object}\n")
}

//! `falgnust columns`: a section written by column, and a section taken back from columns, as they are, on standard output.

use crate::Stop;
use crate::args::Args;
use crate::refusal::Refusal;
use crate::section;
use crate::source::Source;
use falgnust::evr0::{ColumnsError, RuleTable, take_columns, write_columns};

/// The headings of docs/REFUSALS.md that speak of columns.
const HEADINGS: &[&str] = &["Sections by column"];

pub fn run(mut args: Args, answer: &mut Vec<u8>) -> Result<(), Stop> {
    let way = args.word("way: write or take")?;
    let at = args.number("--at")?;
    let rules = section::table(&mut args)?;
    if !["write", "take"].contains(&way.as_str()) {
        return Err(Stop::Failed(format!("no way {way:?}: write or take")));
    }
    if way == "take" && at.is_some() {
        let why = "--at: columns are taken back from the start of the file";
        return Err(Stop::Failed(why.to_owned()));
    }
    let source = Source::read(&args.last("file")?)?;
    let rules = match rules {
        Ok(rules) => rules,
        Err(refused) => return refused.end(false, answer),
    };
    let bytes = match way.as_str() {
        "write" => written(&source, at.unwrap_or(0), rules.as_ref()),
        _ => taken(&source, rules.as_ref()),
    };
    match bytes {
        Ok(bytes) => answer.extend(bytes),
        Err((refusal, headings)) => refusal.of(source, headings).end(false, answer)?,
    }
    Ok(())
}

/// A refusal, and the headings that speak of it.
type Refusing = (Refusal, &'static [&'static str]);

fn written(source: &Source, at: usize, rules: Option<&RuleTable>) -> Result<Vec<u8>, Refusing> {
    let written = match rules {
        None => write_columns(&source.bytes, at),
        Some(rules) => rules.write_columns(&source.bytes, at),
    };
    written.map_err(|error| (error.into(), section::HEADINGS))
}

fn taken(source: &Source, rules: Option<&RuleTable>) -> Result<Vec<u8>, Refusing> {
    let taken = match rules {
        None => take_columns(&source.bytes),
        Some(rules) => rules.take_columns(&source.bytes),
    };
    taken.map_err(|error| {
        let headings = match error {
            ColumnsError::Section(_) => section::HEADINGS,
            _ => HEADINGS,
        };
        (error.into(), headings)
    })
}

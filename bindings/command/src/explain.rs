//! `falgnust explain`: what docs/REFUSALS.md says of a refusal.

use crate::Stop;
use crate::args::{self, Args};
use crate::document::{self, Refusals, Row};
use crate::hex;
use crate::paint::{Paint, Style};
use crate::text;
use std::io;

/// The most bytes of an input that are shown as hexadecimal.
const SHORT: usize = 400;

pub fn run(mut args: Args, answer: &mut Vec<u8>) -> Result<(), Stop> {
    let only_bytes = args.flag("--bytes");
    let number = args::number(&args.last("number")?.to_string_lossy())?;
    let refusals = Refusals::read();
    let rows = refusals.of(number);
    if rows.is_empty() {
        let why = format!("no refusal has the number {number}: docs/REFUSALS.md lists them");
        return Err(Stop::Failed(why));
    }
    if only_bytes {
        let input = rows.iter().find_map(|row| refusals.input(row));
        let none = || Stop::Failed(format!("{number} has no input: it is never given"));
        answer.extend(input.ok_or_else(none)?);
        return Ok(());
    }
    let paint = Paint::of(&io::stdout());
    let mut told = paint.text(Style::Bold, &document::sentence(&rows)) + "\n";
    for row in &rows {
        told += &shown(&refusals, row, paint);
    }
    told += &meetings(&refusals, number, paint);
    answer.extend(told.bytes());
    Ok(())
}

/// A condition with its smallest input, the place that is named marked in it. Where another input comes with it, none is.
fn shown(refusals: &Refusals, row: &Row, paint: Paint) -> String {
    let title = format!("{}: {}", row.heading, row.condition);
    let title = paint.text(Style::Bold, &title);
    let mut told = format!("\n{title}\n  offset  {}\n", row.offset);
    let (Some((words, asked)), Some(bytes)) = (row.words(), refusals.input(row)) else {
        return told + &format!("  {}\n", row.input);
    };
    let count = text::count(bytes.len(), "byte");
    told += &format!(
        "  input   {words}{asked}, {count}\n  answer  {}\n",
        row.answer
    );
    if let Some(call) = call(refusals, row) {
        told += &format!("  try     {call}\n");
    }
    let place = place(row).filter(|_| !asked.contains('`'));
    told + &match place {
        Some(place) if bytes.len() > SHORT => hex::around(&bytes, place, paint),
        None if bytes.len() > SHORT => String::new(),
        place => hex::all(&bytes, place, paint),
    }
}

/// The place of the input that the offset is; none where every offset of the number is 0.
fn place(row: &Row) -> Option<usize> {
    let (_, offset) = row.answer.split_once(" at ")?;
    (row.offset != "0").then(|| offset.parse().expect("an offset"))
}

/// A command that shows the refusal, of a number's first row; none where that lends tables of a length of their own.
fn call(refusals: &Refusals, row: &Row) -> Option<String> {
    let (number, revision) = (row.number, row.revision());
    let asked = row.words()?.1.trim();
    let is_first = std::ptr::eq(*refusals.of(number).first()?, row);
    if !is_first || asked.contains("room") {
        return None;
    }
    let shown = match row.heading {
        "Sections" if asked.is_empty() => "section -".to_owned(),
        "Sections" => format!("section - --{asked}"),
        "Blocks" => format!("block - --revision {revision}"),
        "Files of functions" => format!("functions - --at 0 --revision {revision}"),
        "Sections by column" if asked == "as columns" => "columns take -".to_owned(),
        "Tables of rules" if asked == "as rules" => "section /dev/null --rules -".to_owned(),
        _ => return None,
    };
    Some(format!(
        "falgnust explain {number} --bytes | falgnust {shown}"
    ))
}

/// The pairs of faults of which this one is named.
fn meetings(refusals: &Refusals, number: u8, paint: Paint) -> String {
    let answers = |answer: &str| answer.split(' ').next() == Some(&number.to_string());
    let mut met = refusals
        .meetings
        .iter()
        .filter(|met| answers(met.answer))
        .peekable();
    if met.peek().is_none() {
        return String::new();
    }
    let title = "Where another fault is there too, and this one is named";
    let mut told = format!("\n{}\n", paint.text(Style::Bold, title));
    for met in met {
        told += &format!("  {}: {}\n", met.faults, met.why);
    }
    told
}

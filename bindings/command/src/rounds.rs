//! `falgnust rounds`: the depths of a section by the method on the card.

use crate::Stop;
use crate::args::Args;
use crate::json::{Json, list};
use crate::paint::{Paint, Style};
use crate::refusal::Refusal;
use crate::section::rules::Rules;
use crate::section::{HEADINGS, table};
use crate::source::Source;
use crate::table::{Table, number, text};
use crate::text::thousands;
use std::io;

/// The most numbers of proofs that are listed of one round.
const LISTED: usize = 12;

pub fn run(mut args: Args, answer: &mut Vec<u8>) -> Result<(), Stop> {
    let at = args.number("--at")?.unwrap_or(0);
    let is_script = args.flag("--json");
    let rules = table(&mut args)?;
    let source = Source::read(&args.last("the file")?)?;
    let rules = match rules {
        Ok(rules) => rules,
        Err(refused) => return refused.end(is_script, answer),
    };
    match Rules(rules.as_ref()).rounds(&source.bytes, at) {
        Ok(rounds) => {
            let shown = match is_script {
                true => script(&source.name, at, &rounds),
                false => tables(&source.name, &rounds, Paint::of(&io::stdout())),
            };
            answer.extend(shown.bytes());
            Ok(())
        }
        Err(error) => {
            let refused = Refusal::from(error).of(source, HEADINGS);
            refused.end(is_script, answer)
        }
    }
}

/// For a person: each round with the proofs that are marked in it.
fn tables(name: &str, rounds: &[u64], paint: Paint) -> String {
    let told = paint.text(Style::Green, "marked");
    let last = rounds.iter().max().copied().unwrap_or(0);
    let (proofs, all) = (thousands(rounds.len()), thousands(last as usize));
    let rows = (1..=last).map(|round| {
        let marked = || rounds.iter().enumerate().filter(move |(_, r)| **r == round);
        let numbers: Vec<String> = marked().take(LISTED).map(|(n, _)| n.to_string()).collect();
        let more = if marked().count() > LISTED {
            ", .."
        } else {
            ""
        };
        [
            number(round),
            number(marked().count()),
            text(numbers.join(", ") + more),
        ]
    });
    let table = Table {
        title: "Rounds: all parents of these proofs were marked in earlier ones",
        names: ["round", "marked", "proofs"],
        rows: rows.collect(),
    };
    let head = format!("{told}: {name:?}\n  proofs  {proofs}\n  rounds  {all}\n");
    head + &table.lines(paint)
}

/// For a script.
fn script(name: &str, at: usize, rounds: &[u64]) -> String {
    let fields = vec![
        ("accepted", true.into()),
        ("file", name.into()),
        ("at", at.into()),
        ("rounds", list(rounds.iter().map(|round| *round as usize))),
    ];
    format!("{}\n", Json::Object(fields))
}

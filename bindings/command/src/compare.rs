//! `falgnust compare`: two sections of one source set, held against each other.

use crate::Stop;
use crate::args::Args;
use crate::json::{Json, list};
use crate::paint::{Paint, Style};
use crate::refusal::Refusal;
use crate::section::rules::Rules;
use crate::section::tables::yes_no;
use crate::section::{HEADINGS, table};
use crate::source::Source;
use crate::table::{Cell, Table, number, styled, text};
use crate::text::{shown, thousands};
use falgnust::evr0::{CompareError, Comparison, Proposition, Verdict};
use std::io;

/// The heading of docs/REFUSALS.md that speaks of both together.
const OF_BOTH: &[&str] = &["Two sections compared"];

/// A proposition of either section.
struct Entry {
    proposition: Proposition,
    verdict: Verdict,
    first: Option<One>,
    second: Option<One>,
}

/// Its number in one section, and whether it is authorised there.
struct One {
    number: usize,
    authorised: bool,
}

pub fn run(mut args: Args, answer: &mut Vec<u8>) -> Result<(), Stop> {
    let first_at = args.number("--at")?.unwrap_or(0);
    let second_at = args.number("--second-at")?.unwrap_or(0);
    let is_script = args.flag("--json");
    let rules = table(&mut args)?;
    let files = args.two_files()?;
    if files.iter().all(|file| file == "-") {
        let why = "one of the two files may be standard input";
        return Err(Stop::Failed(why.to_owned()));
    }
    let [first, second] = [Source::read(&files[0])?, Source::read(&files[1])?];
    let rules = match rules {
        Ok(rules) => rules,
        Err(refused) => return refused.end_of("rules", is_script, answer),
    };
    let rules = Rules(rules.as_ref());
    match rules.compare((&first.bytes, first_at), (&second.bytes, second_at)) {
        Ok(compared) => {
            let told = |source: &Source, at| {
                let told = rules.authorised(&source.bytes, at);
                told.expect("a section that was compared")
            };
            let authorised = [told(&first, first_at), told(&second, second_at)];
            let names = [first.name.as_str(), second.name.as_str()];
            let shown = match is_script {
                true => script(names, [first_at, second_at], compared, &authorised),
                false => tables(names, compared, &authorised, Paint::of(&io::stdout())),
            };
            answer.extend(shown.bytes());
            Ok(())
        }
        Err(error) => {
            let (whose, source, headings) = match &error {
                CompareError::First(_) => ("first", first, HEADINGS),
                CompareError::Second(_) => ("second", second, HEADINGS),
                CompareError::SourceSets { .. } => ("both", second, OF_BOTH),
            };
            let refused = Refusal::from(error).of(source, headings);
            refused.end_of(whose, is_script, answer)
        }
    }
}

/// The list with the numbers of either section's propositions: each verdict but that of the other alone takes the next.
fn entries(compared: Comparison, [first, second]: &[Vec<bool>; 2]) -> Vec<Entry> {
    let next = |authorised: &mut dyn Iterator<Item = (usize, &bool)>| {
        let told = authorised.next();
        told.map(|(number, told)| One {
            number,
            authorised: *told,
        })
    };
    let (mut first, mut second) = (first.iter().enumerate(), second.iter().enumerate());
    let each = compared.entries.into_iter().map(|entry| Entry {
        first: match entry.verdict {
            Verdict::SecondOnly => None,
            _ => next(&mut first),
        },
        second: match entry.verdict {
            Verdict::FirstOnly => None,
            _ => next(&mut second),
        },
        proposition: entry.proposition,
        verdict: entry.verdict,
    });
    each.collect()
}

fn word(verdict: Verdict) -> &'static str {
    match verdict {
        Verdict::Agreed => "agreed",
        Verdict::Contradicted => "contradicted",
        Verdict::FirstOnly => "first only",
        Verdict::SecondOnly => "second only",
    }
}

/// For a person.
fn tables(
    names: [&str; 2],
    compared: Comparison,
    authorised: &[Vec<bool>; 2],
    paint: Paint,
) -> String {
    let totals = [
        (Verdict::Agreed, compared.agreed),
        (Verdict::Contradicted, compared.contradicted),
        (Verdict::FirstOnly, compared.first_only),
        (Verdict::SecondOnly, compared.second_only),
    ];
    let [first, second] = names;
    let told = paint.text(Style::Green, "compared");
    let mut lines = format!("{told}: {first:?} and {second:?}\n");
    for (verdict, total) in totals {
        lines += &format!("  {:<12}  {}\n", word(verdict), thousands(total));
    }
    let rows = entries(compared, authorised).into_iter().map(|entry| {
        let p = &entry.proposition;
        [
            painted(entry.verdict),
            told_in(entry.first),
            told_in(entry.second),
            number(p.ast_owner_id),
            number(p.semantic_scope_id),
            number(p.type_obligation_id),
            text(shown(&p.kind)),
        ]
    });
    let table = Table {
        title: "Propositions, and where they are authorised",
        names: [
            "verdict", "first", "second", "owner", "scope", "type", "kind",
        ],
        rows: rows.collect(),
    };
    lines + &table.lines(paint)
}

fn painted(verdict: Verdict) -> Cell {
    let style = match verdict {
        Verdict::Agreed => Style::Green,
        Verdict::Contradicted => Style::Red,
        Verdict::FirstOnly | Verdict::SecondOnly => Style::Yellow,
    };
    styled(word(verdict), style)
}

fn told_in(one: Option<One>) -> Cell {
    match one {
        Some(one) => yes_no(one.authorised),
        None => text("-"),
    }
}

/// For a script.
fn script(
    [first, second]: [&str; 2],
    [first_at, second_at]: [usize; 2],
    compared: Comparison,
    authorised: &[Vec<bool>; 2],
) -> String {
    let totals = [
        ("agreed", compared.agreed.into()),
        ("contradicted", compared.contradicted.into()),
        ("first_only", compared.first_only.into()),
        ("second_only", compared.second_only.into()),
    ];
    let each = entries(compared, authorised).into_iter().map(|entry| {
        Json::Object(vec![
            ("verdict", word(entry.verdict).into()),
            ("first", one_json(entry.first)),
            ("second", one_json(entry.second)),
            ("kind", entry.proposition.kind.as_str().into()),
            ("owner", entry.proposition.ast_owner_id.into()),
            ("scope", entry.proposition.semantic_scope_id.into()),
            ("type", entry.proposition.type_obligation_id.into()),
        ])
    });
    let propositions = list(each);
    let mut fields = vec![
        ("accepted", true.into()),
        ("first", first.into()),
        ("first_at", first_at.into()),
        ("second", second.into()),
        ("second_at", second_at.into()),
    ];
    fields.extend(totals);
    fields.push(("propositions", propositions));
    format!("{}\n", Json::Object(fields))
}

fn one_json(one: Option<One>) -> Json {
    one.map_or(Json::Null, |one| {
        Json::Object(vec![
            ("number", one.number.into()),
            ("authorised", one.authorised.into()),
        ])
    })
}

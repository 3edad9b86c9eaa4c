//! docs/REFUSALS.md, which has each refusal's meaning, offset and smallest input: what is said of a refusal here is read from it.

use crate::words::{self, Names};

const DOCUMENT: &str = include_str!("../../../docs/REFUSALS.md");

/// A row: a condition that a number is given for.
pub struct Row {
    /// The heading that it stands under.
    pub heading: &'static str,
    pub number: u8,
    pub kind: &'static str,
    pub offset: &'static str,
    pub condition: &'static str,
    /// Its input's words, with what is asked after them; of a number that is never given, why not.
    pub input: &'static str,
    pub answer: &'static str,
}

/// Where two faults meet: which they are, and why the first is named.
pub struct Meeting {
    pub faults: &'static str,
    pub why: &'static str,
    pub answer: &'static str,
}

/// What the document says.
pub struct Refusals {
    pub rows: Vec<Row>,
    pub meetings: Vec<Meeting>,
    pub names: Names,
}

impl Refusals {
    pub fn read() -> Self {
        let mut read = Refusals {
            rows: Vec::new(),
            meetings: Vec::new(),
            names: Names::new(),
        };
        let (mut heading, mut columns) = ("", Vec::new());
        for line in DOCUMENT.lines() {
            if let Some(found) = line.strip_prefix("## ") {
                heading = found;
            }
            let Some(cells) = cells(line) else {
                columns.clear();
                continue;
            };
            match (columns.as_slice(), cells.as_slice()) {
                ([], _) => columns = cells,
                (_, [dashes, ..]) if dashes.starts_with("---") => {}
                (["Word"], [words]) => read.name(words),
                (
                    [
                        "Number",
                        "Kind",
                        "Offset",
                        "Condition",
                        "Definition",
                        "Input",
                        "Answer",
                    ],
                    &[number, kind, offset, condition, _, input, answer],
                ) => read.rows.push(Row {
                    heading,
                    number: number.parse().expect("a refusal's number"),
                    kind,
                    offset,
                    condition,
                    input,
                    answer,
                }),
                (["Faults", .., "Answer"], &[faults, why, _, answer]) => {
                    read.meetings.push(Meeting {
                        faults,
                        why,
                        answer,
                    });
                }
                _ => {}
            }
        }
        read
    }

    /// Takes `` `NAME` = `WORDS` `` of a cell.
    fn name(&mut self, cell: &str) {
        let quoted: Vec<&str> = cell.split('`').collect();
        for [_, name, equals, words] in quoted.windows(4).filter_map(|four| four.as_array()) {
            if *equals == " = "
                && let Some(bytes) = words::bytes(words, &self.names)
            {
                self.names.insert((*name).to_owned(), bytes);
            }
        }
    }

    /// The rows of a number.
    pub fn of(&self, number: u8) -> Vec<&Row> {
        let rows = self.rows.iter();
        rows.filter(|row| row.number == number).collect()
    }

    /// The bytes of a row's input.
    pub fn input(&self, row: &Row) -> Option<Vec<u8>> {
        words::bytes(row.words()?.0, &self.names)
    }
}

impl Row {
    /// An input's words, and what is asked after them.
    pub fn words(&self) -> Option<(&'static str, &'static str)> {
        self.input.strip_prefix('`')?.split_once('`')
    }

    /// The revision that its input is of.
    pub fn revision(&self) -> &'static str {
        let asked = self.words().map_or("", |(_, asked)| asked);
        let after = asked.split_once("rev ").map(|(_, after)| after);
        let (_, usual) = DOCUMENT.split_once("at revision ").unwrap_or_default();
        let digits = |text: &'static str| text.split(|c: char| !c.is_ascii_digit()).next();
        digits(after.unwrap_or(usual)).unwrap_or_default()
    }
}

/// The sentence that a refusal carries: its kind and number, and each condition with the place that its offset is.
pub fn sentence(rows: &[&Row]) -> String {
    let mut causes: Vec<(String, String)> = Vec::new();
    for row in rows {
        let front = format!("{} {}: ", row.kind, row.number);
        let cause = (front, format!("{} (offset: {})", row.condition, row.offset));
        if !causes.contains(&cause) {
            causes.push(cause);
        }
    }
    let kinds = causes.chunk_by(|(kind, _), (next, _)| kind == next);
    let said = kinds.map(|causes| {
        let of_kind: Vec<&str> = causes.iter().map(|(_, cause)| cause.as_str()).collect();
        format!("{}{}", causes[0].0, of_kind.join("; or "))
    });
    said.collect::<Vec<_>>().join("; or ")
}

/// A table line's cells.
fn cells(line: &'static str) -> Option<Vec<&'static str>> {
    let inner = line.trim().strip_prefix('|')?.strip_suffix('|')?;
    Some(inner.split('|').map(str::trim).collect())
}

#[cfg(test)]
mod tests {
    use super::*;

    #[test]
    fn the_tables_are_found() {
        let refusals = Refusals::read();
        assert!(refusals.rows.len() > 60 && refusals.meetings.len() > 60);
        assert!((1..=65).all(|number| !refusals.of(number).is_empty()));
    }

    #[test]
    fn every_input_can_be_read() {
        let refusals = Refusals::read();
        for row in refusals.rows.iter().filter(|row| row.words().is_some()) {
            assert!(
                refusals.input(row).is_some(),
                "{} {}",
                row.number,
                row.input
            );
        }
    }

    #[test]
    fn a_sentence_has_each_cause() {
        let refusals = Refusals::read();
        assert_eq!(
            sentence(&refusals.of(9)),
            "Invalid 9: nonzero reserved byte (offset: after the three)"
        );
        let said = sentence(&refusals.of(62));
        assert_eq!(said.matches("number not in the accepted table").count(), 1);
        assert_eq!(sentence(&refusals.of(63)).matches("; or ").count(), 2);
    }
}

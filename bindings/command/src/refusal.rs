//! A refusal, as it is printed: number and offset, the sentence of docs/REFUSALS.md, and the bytes around its offset with the place marked.

use crate::Stop;
use crate::document::{self, Refusals};
use crate::hex;
use crate::json::Json;
use crate::paint::{Paint, Style};
use crate::source::Source;
use falgnust::calls;
use falgnust::evr0::{ColumnsError, CompareError, Evr0Error, Evr0ErrorKind, RulesError};
use falgnust::locks::ClaimError;
use falgnust::semcode_decode::DecodeError;

/// What the proved functions say of bytes that they refuse.
pub struct Refusal {
    /// As docs/REFUSALS.md calls it.
    kind: &'static str,
    number: u8,
    offset: usize,
    /// The Rust's words, which tell causes apart that share a number; none for what the Rust does not have.
    message: Option<String>,
    /// Whether the offset is a place of the bytes that were read.
    is_place: bool,
}

impl Refusal {
    /// A record that was asked for by a number that its table does not have.
    pub const NO_SUCH_NUMBER: Refusal = Refusal {
        kind: "Added",
        number: 62,
        offset: 0,
        message: None,
        is_place: false,
    };

    /// With what was refused: its bytes, and the headings of docs/REFUSALS.md that speak of it.
    pub fn of(self, source: Source, headings: &'static [&'static str]) -> Refused {
        Refused {
            refusal: self,
            source,
            headings,
        }
    }
}

impl From<Evr0Error> for Refusal {
    fn from(error: Evr0Error) -> Self {
        Refusal {
            kind: match error.kind {
                Evr0ErrorKind::Invalid => "Invalid",
                Evr0ErrorKind::ResourceLimit => "Limit",
            },
            number: error.number().expect("a number of every refusal"),
            offset: error.offset,
            message: Some(error.message.to_owned()),
            is_place: true,
        }
    }
}

impl From<ColumnsError> for Refusal {
    fn from(error: ColumnsError) -> Self {
        let number = error.number().expect("a number of every refusal");
        let offset = error.offset();
        match error {
            // no file has the section that was rebuilt
            ColumnsError::Section(error) => Refusal {
                is_place: false,
                ..error.into()
            },
            _ => Refusal {
                kind: "Added",
                number,
                offset,
                message: None,
                is_place: true,
            },
        }
    }
}

impl From<RulesError> for Refusal {
    fn from(error: RulesError) -> Self {
        Refusal {
            kind: "Added",
            number: error.number().expect("a number of every refusal"),
            offset: error.offset,
            message: None,
            is_place: false,
        }
    }
}

impl From<CompareError> for Refusal {
    fn from(error: CompareError) -> Self {
        match error {
            CompareError::First(error) | CompareError::Second(error) => error.into(),
            CompareError::SourceSets { offset } => Refusal {
                kind: "Added",
                number: SOURCE_SETS,
                offset,
                message: None,
                is_place: true,
            },
        }
    }
}

impl From<DecodeError> for Refusal {
    fn from(error: DecodeError) -> Self {
        let offset = error.offset().expect("an offset of every refusal");
        let message = error.to_string();
        let place = format!(" at {offset}");
        Refusal {
            kind: kind(&error),
            number: error.number().expect("a number of every refusal"),
            offset,
            message: Some(message.strip_suffix(&place).unwrap_or(&message).to_owned()),
            is_place: true,
        }
    }
}

impl From<ClaimError> for Refusal {
    fn from(error: ClaimError) -> Self {
        let number = error.number().expect("a number of every refusal");
        match error {
            ClaimError::Block(error) => error.into(),
            _ => Refusal {
                kind: "Added",
                number,
                offset: 0,
                message: None,
                is_place: false,
            },
        }
    }
}

/// The refusal of two sections whose source sets differ, at a place in the second file.
const SOURCE_SETS: u8 = 74;

/// The refusal of a section whose tag is not at its place.
const NO_TAG: u8 = 1;

/// Where else the tag stands: the first few places.
fn tags(bytes: &[u8]) -> String {
    let places = (0..bytes.len()).filter(|at| calls::tag_at(bytes, *at, b"EVR0"));
    let told = places.map(|at| format!("  the tag EVR0 stands at {at}: --at {at}\n"));
    told.take(3).collect()
}

fn kind(error: &DecodeError) -> &'static str {
    match error {
        DecodeError::TruncatedFunction { .. } => "Truncated",
        DecodeError::InvalidFunctionName { .. } => "Name",
        DecodeError::InvalidStringTable { .. } => "Strings",
        DecodeError::InvalidDebugSection { .. } => "Debug",
        DecodeError::InvalidOwnershipSection { .. } => "Ownership",
        DecodeError::InvalidSignatureSection { .. } => "Signature",
        DecodeError::ResourceLimit { .. } => "Limit",
        other => panic!("the decoders have no refusal {other}"),
    }
}

/// A refusal of some bytes.
pub struct Refused {
    refusal: Refusal,
    source: Source,
    headings: &'static [&'static str],
}

impl Refused {
    /// Ends the run: a script gets the refusal as the answer.
    pub fn end(self, is_script: bool, answer: &mut Vec<u8>) -> Result<(), Stop> {
        if is_script {
            let refusal = Json::Object(self.json().into());
            answer.extend(format!("{refusal}\n").bytes());
            return Err(Stop::Answered);
        }
        Err(Stop::Refused(self))
    }

    /// The same of one of several that are looked at together: whose it is stands before it.
    pub fn end_of(
        self,
        whose: &'static str,
        is_script: bool,
        answer: &mut Vec<u8>,
    ) -> Result<(), Stop> {
        if is_script {
            let mut fields = vec![("whose", whose.into())];
            fields.extend(self.json());
            answer.extend(format!("{}\n", Json::Object(fields)).bytes());
            return Err(Stop::Answered);
        }
        Err(Stop::Refused(self))
    }

    /// Of the conditions of its number those of its kind, where they are under one of the headings.
    fn sentence(&self) -> String {
        let Refusal { kind, number, .. } = self.refusal;
        let refusals = Refusals::read();
        let mut rows = refusals.of(number);
        rows.retain(|row| row.kind == kind && self.headings.contains(&row.heading));
        document::sentence(&rows)
    }

    /// For a person.
    pub fn told(&self, paint: Paint) -> String {
        let Refusal {
            kind,
            number,
            offset,
            message,
            is_place,
        } = &self.refusal;
        let name = format!("{:?}", self.source.name);
        let refused = paint.text(Style::Red, &format!("refused {number} at {offset}"));
        let mut told = format!("{refused}: {name}\n  {}\n", self.sentence());
        if let Some(message) = message {
            told += &format!("  in the Rust's words: {message}\n");
        }
        if *number == NO_TAG && *is_place {
            told += &tags(&self.source.bytes);
        }
        if *is_place {
            told += &hex::around(&self.source.bytes, *offset, paint);
        } else if *kind != "Added" {
            told += "  the place is one in the section that is rebuilt from the columns\n";
        }
        told
    }

    /// For a script.
    pub fn json(&self) -> [(&'static str, Json); 6] {
        let Refusal {
            kind,
            number,
            offset,
            message,
            ..
        } = &self.refusal;
        [
            ("accepted", false.into()),
            ("kind", (*kind).into()),
            ("number", (*number).into()),
            ("offset", (*offset).into()),
            ("meaning", self.sentence().into()),
            ("message", message.clone().map_or(Json::Null, Json::from)),
        ]
    }
}

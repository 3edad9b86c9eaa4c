//! A script: a line for each step. `revision N` and `source DIGITS` say of what revision and of what source set the files after them are;
//! `claim OWNER FUNCTION FILE` claims the paths of a function, by its number; `release OWNER` drops what an owner holds. Empty lines and those
//! that start with # are passed over.

use crate::Stop;
use crate::args;
use crate::json::Json;
use crate::source::Source;
use crate::text::{hex, shown};

pub struct Step {
    /// Of the script, from 1 on.
    line: usize,
    pub act: Act,
}

pub enum Act {
    Claim(Claim),
    Release { owner: u32 },
}

pub struct Claim {
    pub owner: u32,
    pub function: usize,
    pub file: String,
    pub revision: u16,
    /// The source set in which the file's symbols are numbered.
    pub source: [u8; 32],
}

impl Step {
    /// For a person.
    pub fn told(&self) -> String {
        let line = self.line;
        match &self.act {
            Act::Claim(claim) => {
                let (owner, function, file) = (claim.owner, claim.function, shown(&claim.file));
                format!("line {line}, owner {owner} claims function {function} of {file}")
            }
            Act::Release { owner } => format!("line {line}, owner {owner} releases"),
        }
    }

    /// For a script.
    pub fn json(&self) -> Vec<(&'static str, Json)> {
        let line = ("line", self.line.into());
        match &self.act {
            Act::Claim(claim) => vec![
                line,
                ("claim", claim.owner.into()),
                ("function", claim.function.into()),
                ("file", claim.file.as_str().into()),
                ("revision", claim.revision.into()),
                ("source_set", hex(&claim.source).into()),
            ],
            Act::Release { owner } => vec![line, ("release", (*owner).into())],
        }
    }
}

/// The steps of a script. The source set is zeros up to the first that is named.
pub fn read(script: &Source) -> Result<Vec<Step>, Stop> {
    let mut steps = Vec::new();
    let (mut revision, mut source) = (None, [0; 32]);
    for (line, text) in (1..).zip(String::from_utf8_lossy(&script.bytes).lines()) {
        let failed = |why: &str| Stop::Failed(format!("{}, line {line}: {why}", script.name));
        let of_line = |stop| match stop {
            Stop::Failed(why) => failed(&why),
            other => other,
        };
        let words: Vec<&str> = text.trim().splitn(4, ' ').collect();
        let act = match words[..] {
            [""] => continue,
            [word, ..] if word.starts_with('#') => continue,
            ["revision", number] => {
                revision = Some(args::number(number).map_err(of_line)?);
                continue;
            }
            ["source", digits] => {
                source = digest(digits)
                    .ok_or_else(|| failed("a source set has 64 hexadecimal digits"))?;
                continue;
            }
            ["claim", owner, function, file] => Act::Claim(Claim {
                owner: args::number(owner).map_err(of_line)?,
                function: args::number(function).map_err(of_line)?,
                file: file.to_owned(),
                revision: revision.ok_or_else(|| failed("no revision before it"))?,
                source,
            }),
            ["release", owner] => Act::Release {
                owner: args::number(owner).map_err(of_line)?,
            },
            _ => return Err(failed("neither revision, source, claim nor release")),
        };
        steps.push(Step { line, act });
    }
    Ok(steps)
}

/// 32 bytes from their digits.
fn digest(digits: &str) -> Option<[u8; 32]> {
    let value = |digit: char| Some(digit.to_digit(16)? as u8);
    let digits: Vec<u8> = digits.chars().map(value).collect::<Option<_>>()?;
    let (pairs, rest) = digits.as_chunks();
    let pairs: [[u8; 2]; 32] = pairs.try_into().ok()?;
    rest.is_empty()
        .then(|| pairs.map(|[high, low]| high << 4 | low))
}

#[cfg(test)]
mod tests {
    use super::*;

    fn read_lines(lines: &str) -> Result<Vec<Step>, String> {
        let script = Source {
            name: "script".to_owned(),
            bytes: lines.as_bytes().to_vec(),
        };
        read(&script).map_err(|stop| match stop {
            Stop::Failed(why) => why,
            _ => panic!("a script is no file to refuse"),
        })
    }

    #[test]
    fn steps_are_read() {
        let set = "ab".repeat(32);
        let lines = format!(
            "# three\n\nrevision 22\nsource {set}\nclaim 1 0x2 a file.semcode\nrelease 1\n"
        );
        let steps = read_lines(&lines).unwrap();
        assert_eq!(
            steps[0].told(),
            "line 5, owner 1 claims function 2 of \"a file.semcode\""
        );
        assert!(
            matches!(&steps[0].act, Act::Claim(claim) if claim.source == [0xab; 32] && claim.revision == 22)
        );
        assert_eq!(steps[1].told(), "line 6, owner 1 releases");
    }

    #[test]
    fn other_lines_are_named() {
        for (lines, why) in [
            ("claim 1 0 f", "script, line 1: no revision before it"),
            (
                "\nrevision x",
                "script, line 2: \"x\" is no number, or too large a one",
            ),
            (
                "source 00",
                "script, line 1: a source set has 64 hexadecimal digits",
            ),
            (
                "lock",
                "script, line 1: neither revision, source, claim nor release",
            ),
        ] {
            assert_eq!(read_lines(lines).err().as_deref(), Some(why));
        }
    }
}

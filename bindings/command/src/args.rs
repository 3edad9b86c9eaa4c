//! The words after `falgnust`.

use crate::Stop;
use std::ffi::OsString;
use std::str::FromStr;

/// The words that were not taken yet.
pub struct Args {
    words: Vec<OsString>,
}

impl Args {
    pub fn new() -> Self {
        Args {
            words: std::env::args_os().skip(1).collect(),
        }
    }

    /// The first word.
    pub fn command(&mut self) -> Result<String, Stop> {
        if self.words.is_empty() {
            return Err(failed("which command? falgnust --help lists them"));
        }
        Ok(self.words.remove(0).to_string_lossy().into_owned())
    }

    /// The next word, which says `what`.
    pub fn word(&mut self, what: &str) -> Result<String, Stop> {
        if self.words.is_empty() {
            return Err(failed(format!("which {what}?")));
        }
        Ok(self.words.remove(0).to_string_lossy().into_owned())
    }

    /// Whether an option stands among the words.
    pub fn flag(&mut self, name: &str) -> bool {
        let at = self.words.iter().position(|word| word == name);
        at.map(|at| self.words.remove(at)).is_some()
    }

    /// The number after an option, where it stands among the words.
    pub fn number<T: FromStr + TryFrom<u64>>(&mut self, name: &str) -> Result<Option<T>, Stop> {
        let Some(at) = self.words.iter().position(|word| word == name) else {
            return Ok(None);
        };
        self.words.remove(at);
        if at == self.words.len() {
            return Err(failed(format!("no number after {name}")));
        }
        let word = self.words.remove(at);
        number(&word.to_string_lossy()).map(Some)
    }

    /// The file after an option, where it stands among the words.
    pub fn file(&mut self, name: &str) -> Result<Option<OsString>, Stop> {
        let Some(at) = self.words.iter().position(|word| word == name) else {
            return Ok(None);
        };
        self.words.remove(at);
        if at == self.words.len() {
            return Err(failed(format!("no file after {name}")));
        }
        Ok(Some(self.words.remove(at)))
    }

    /// The one word that is left, which says `what`.
    pub fn last(self, what: &str) -> Result<OsString, Stop> {
        let [word] = self.left([what], "one")?;
        Ok(word)
    }

    /// The two files that are left.
    pub fn two_files(self) -> Result<[OsString; 2], Stop> {
        self.left(["first file", "second file"], "two")
    }

    /// The words that are left: as many as say `what`.
    fn left<const N: usize>(self, what: [&str; N], many: &str) -> Result<[OsString; N], Stop> {
        let unknown = |word: &OsString| word != "-" && word.as_encoded_bytes().starts_with(b"-");
        if let Some(word) = self.words.iter().find(|word| unknown(word)) {
            return Err(failed(format!("no option {word:?} here")));
        }
        <[OsString; N]>::try_from(self.words).map_err(|words| match what.get(words.len()) {
            Some(what) => failed(format!("which {what}?")),
            None if N == 1 => failed(format!("more than {many} {}: {:?}", what[0], words[N])),
            None => failed(format!("more than {many} files: {:?}", words[N])),
        })
    }
}

/// A number, decimal or after 0x hexadecimal.
pub fn number<T: FromStr + TryFrom<u64>>(word: &str) -> Result<T, Stop> {
    let read = match word.strip_prefix("0x") {
        Some(digits) => u64::from_str_radix(digits, 16)
            .ok()
            .and_then(|n| n.try_into().ok()),
        None => word.parse().ok(),
    };
    read.ok_or_else(|| failed(format!("{word:?} is no number, or too large a one")))
}

fn failed(why: impl Into<String>) -> Stop {
    Stop::Failed(why.into())
}

//! The bytes of a file, or of standard input, in one read.

use crate::Stop;
use std::ffi::OsStr;
use std::io::{self, Read};

/// A file that was read.
pub struct Source {
    pub name: String,
    pub bytes: Vec<u8>,
}

impl Source {
    /// `-` is standard input.
    pub fn read(file: &OsStr) -> Result<Self, Stop> {
        let mut bytes = Vec::new();
        let (name, read) = if file == "-" {
            let read = io::stdin().lock().read_to_end(&mut bytes);
            ("standard input".to_owned(), read.map(|_| bytes))
        } else {
            (file.to_string_lossy().into_owned(), std::fs::read(file))
        };
        match read {
            Ok(bytes) => Ok(Source { name, bytes }),
            Err(error) => Err(Stop::Failed(format!("cannot read {name}: {error}"))),
        }
    }
}

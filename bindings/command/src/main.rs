//! The command `falgnust`, for whoever has files and no compiler. It computes no answer itself: what it shows is read from the answers of the
//! proved functions, through the crate `falgnust`.

#![forbid(unsafe_code)]

mod args;
mod block;
mod columns;
mod compare;
mod document;
mod explain;
mod functions;
mod help;
mod hex;
mod json;
mod locks;
mod page;
mod paint;
mod progress;
mod refusal;
mod rounds;
mod section;
mod source;
mod table;
mod text;
mod words;

use args::Args;
use paint::Paint;
use refusal::Refused;
use std::io::{self, Write};
use std::process::ExitCode;

/// What a run ends in, but for an answer that is accepted.
pub enum Stop {
    /// Status 1: the bytes are refused.
    Refused(Refused),
    /// Status 1, where the answer says so.
    Answered,
    /// Status 2: the words after `falgnust`, or a file that cannot be read.
    Failed(String),
}

fn main() -> ExitCode {
    let mut answer = Vec::new();
    let ended = run(&mut answer);
    let written = write(&answer).and_then(|()| match ended {
        Ok(()) => Ok(ExitCode::SUCCESS),
        Err(Stop::Refused(refused)) => {
            let paint = Paint::of(&io::stderr());
            write!(io::stderr().lock(), "{}", refused.told(paint))?;
            Ok(ExitCode::from(1))
        }
        Err(Stop::Answered) => Ok(ExitCode::from(1)),
        Err(Stop::Failed(why)) => {
            writeln!(io::stderr().lock(), "falgnust: {why}")?;
            Ok(ExitCode::from(2))
        }
    });
    written.unwrap_or_else(|error| {
        let pipe_closed = error.kind() == io::ErrorKind::BrokenPipe;
        if !pipe_closed {
            let _ = writeln!(io::stderr().lock(), "falgnust: cannot write: {error}");
        }
        ExitCode::from(2)
    })
}

fn write(answer: &[u8]) -> io::Result<()> {
    let mut out = io::stdout().lock();
    out.write_all(answer)?;
    out.flush()
}

/// Writes the answer, which for `--json` may be a refusal too.
fn run(answer: &mut Vec<u8>) -> Result<(), Stop> {
    let mut args = Args::new();
    let command = args.command()?;
    if args.flag("--help") || ["--help", "-h", "help"].contains(&command.as_str()) {
        answer.extend(help::of(&command).unwrap_or(help::ALL).bytes());
        return Ok(());
    }
    match command.as_str() {
        "section" => section::run(args, answer),
        "compare" => compare::run(args, answer),
        "rounds" => rounds::run(args, answer),
        "page" => page::run(args, answer),
        "functions" => functions::run(args, answer),
        "block" => block::run(args, answer),
        "columns" => columns::run(args, answer),
        "locks" => locks::run(args, answer),
        "explain" => explain::run(args, answer),
        other => Err(Stop::Failed(format!(
            "no command {other:?}: falgnust --help lists them"
        ))),
    }
}

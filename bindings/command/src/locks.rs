//! `falgnust locks`: claims and releases of a script, one after the other, from a register in which nothing is held.

use crate::Stop;
use crate::args::Args;
use crate::json::{Json, list};
use crate::paint::Paint;
use crate::refusal::{Refusal, Refused};
use crate::source::Source;
use falgnust::locks::Register;
use falgnust::semcode_decode::function_number;
use script::{Act, Claim, Step};
use std::ffi::OsStr;
use std::io;

mod script;
mod shown;

/// The headings of docs/REFUSALS.md that speak of a claim, and of the file and block that it is of.
const HEADINGS: &[&str] = &["Locks", "Files of functions", "Blocks"];

/// Where the functions of a file start: behind the magic.
const MAGIC: usize = 8;

pub fn run(mut args: Args, answer: &mut Vec<u8>) -> Result<(), Stop> {
    let is_script = args.flag("--json");
    let steps = script::read(&Source::read(&args.last("script")?)?)?;
    let mut register = Register::new();
    let mut done = Vec::new();
    for step in steps {
        let ended = act(&step, &mut register)?;
        done.push((step, ended));
    }
    let is_refused = done.iter().any(|(_, ended)| ended.is_err());
    let told = match is_script {
        true => script_of(&done, &register),
        false => shown::lines(&done, &register, Paint::of(&io::stdout())),
    };
    answer.extend(told.bytes());
    match is_refused {
        true => Err(Stop::Answered),
        false => Ok(()),
    }
}

/// How many locks are held after a step, or why it was refused.
type Ended = Result<usize, Refused>;

fn act(step: &Step, register: &mut Register) -> Result<Ended, Stop> {
    match &step.act {
        Act::Release { owner } => Ok(Ok(register.release(*owner))),
        Act::Claim(claim) => {
            let file = Source::read(OsStr::new(&claim.file))?;
            let claimed = claimed(register, claim, &file.bytes);
            Ok(claimed.map_err(|refusal| refusal.of(file, HEADINGS)))
        }
    }
}

fn claimed(register: &mut Register, claim: &Claim, bytes: &[u8]) -> Result<usize, Refusal> {
    let Claim {
        owner,
        revision,
        source,
        ..
    } = claim;
    let found = function_number(bytes, MAGIC, *revision, claim.function)?;
    let function = found.ok_or(Refusal::NO_SUCH_NUMBER)?;
    let (base, code) = (function.code_offset, function.code_slice);
    Ok(register.claim(*owner, base, code, *revision, source)?)
}

fn script_of(done: &[(Step, Ended)], register: &Register) -> String {
    let steps = done.iter().map(|(step, ended)| {
        let mut fields = step.json();
        match ended {
            Ok(held) => fields.extend([("accepted", true.into()), ("held", (*held).into())]),
            Err(refused) => fields.extend(refused.json()),
        }
        Json::Object(fields)
    });
    let object = Json::Object(vec![
        (
            "accepted",
            done.iter().all(|(_, ended)| ended.is_ok()).into(),
        ),
        ("steps", list(steps)),
        ("locks", list(shown::locks_json(register))),
    ]);
    format!("{object}\n")
}

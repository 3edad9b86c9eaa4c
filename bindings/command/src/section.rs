//! `falgnust section`: what an evidence section holds.

use crate::Stop;
use crate::args::Args;
use crate::paint::Paint;
use crate::progress::ask_all;
use crate::refusal::{Refusal, Refused};
use crate::source::Source;
use falgnust::evr0::{DecodedEvr0, Proof, RuleTable};
use falgnust::raw::WayDown;
use lent::Lent;
use rules::Rules;
use std::io;

mod lent;
mod one;
pub mod rules;
mod script;
pub mod tables;

/// The headings of docs/REFUSALS.md that speak of sections.
pub const HEADINGS: &[&str] = &["Sections"];
/// Those that speak of tables of rules.
const OF_RULES: &[&str] = &["Tables of rules"];

/// The most moves of a way down in an accepted section.
const MOST_MOVES: u64 = 255;

/// A section, with what the proved functions say of its proofs beside the records.
pub struct Section<'a> {
    bytes: &'a [u8],
    rules: Rules<'a>,
    /// Where it starts in the file, and where it ends.
    at: usize,
    end: usize,
    records: DecodedEvr0,
    depths: Vec<u64>,
    marks: Vec<u8>,
    /// 1 where a proposition is authorised.
    authorised: Vec<u8>,
}

impl<'a> Section<'a> {
    pub fn decode(
        bytes: &'a [u8],
        at: usize,
        rules: Option<&'a RuleTable>,
    ) -> Result<Self, Refusal> {
        let rules = Rules(rules);
        let mut end = at;
        let records = rules.decode(bytes, &mut end)?;
        let mut lent = Lent::to(&records);
        let again = rules.told(lent.all(bytes, at));
        assert!(again.accepted, "the same section");
        Ok(Section {
            bytes,
            rules,
            at,
            end,
            records,
            depths: lent.depths,
            marks: lent.marks,
            authorised: lent.authorised,
        })
    }

    /// Whether a proposition is authorised.
    fn authorised(&self, proposition: u32) -> bool {
        self.authorised[proposition as usize] == 1
    }

    /// The way down from each of these proofs.
    fn ways_down(&self, proofs: &[u32]) -> Vec<WayDown> {
        let ask = |lent: &mut Lent, number| self.way_down(number, MOST_MOVES, lent);
        ask_all("ways down", proofs, || Lent::to(&self.records), ask)
    }

    fn way_down(&self, proof: u32, limit: u64, lent: &mut Lent) -> WayDown {
        let answer = self
            .rules
            .way_down(self.bytes, self.at, proof, limit, lent.tables());
        assert!(answer.accepted, "a proof of the section");
        answer
    }

    fn all_propositions(&self) -> Vec<u32> {
        (0..self.records.propositions.len() as u32).collect()
    }

    fn all_proofs(&self) -> Vec<u32> {
        (0..self.records.proofs.len() as u32).collect()
    }

    fn proof(&self, number: u32) -> &Proof {
        &self.records.proofs[number as usize]
    }

    /// The proofs that a proof rests on.
    fn parents(&self, proof: &Proof) -> &[u32] {
        &self.records.parents[proof.parent_first as usize..][..proof.parent_count as usize]
    }
}

/// The witnesses that a proof rests on.
fn witnesses(proof: &Proof) -> std::ops::Range<u32> {
    proof.witness_first..proof.witness_first + proof.witness_count
}

/// What is asked for.
enum Asked {
    All,
    Proposition(u32),
    Proof(u32),
}

pub fn run(mut args: Args, answer: &mut Vec<u8>) -> Result<(), Stop> {
    let at = args.number("--at")?.unwrap_or(0);
    let is_script = args.flag("--json");
    let asked = match (args.number("--proposition")?, args.number("--proof")?) {
        (None, None) => Asked::All,
        (Some(number), None) => Asked::Proposition(number),
        (None, Some(number)) => Asked::Proof(number),
        (Some(_), Some(_)) => {
            let why = "--proposition and --proof: one of the two";
            return Err(Stop::Failed(why.to_owned()));
        }
    };
    let rules = table(&mut args)?;
    let source = Source::read(&args.last("file")?)?;
    let rules = match rules {
        Ok(rules) => rules,
        Err(refused) => return refused.end(is_script, answer),
    };
    match shown(&source, at, rules.as_ref(), asked, is_script) {
        Ok(shown) => answer.extend(shown.bytes()),
        Err(refusal) => refusal.of(source, HEADINGS).end(is_script, answer)?,
    }
    Ok(())
}

/// The table of `--rules`, or its refusal.
pub fn table(args: &mut Args) -> Result<Result<Option<RuleTable>, Refused>, Stop> {
    let Some(file) = args.file("--rules")? else {
        return Ok(Ok(None));
    };
    let source = Source::read(&file)?;
    Ok(match RuleTable::load(&source.bytes) {
        Ok(table) => Ok(Some(table)),
        Err(error) => Err(Refusal::from(error).of(source, OF_RULES)),
    })
}

fn shown(
    source: &Source,
    at: usize,
    rules: Option<&RuleTable>,
    asked: Asked,
    is_script: bool,
) -> Result<String, Refusal> {
    let section = Section::decode(&source.bytes, at, rules)?;
    let paint = Paint::of(&io::stdout());
    let shown = match asked {
        Asked::All if is_script => format!("{}\n", section.json(&source.name)),
        Asked::All => section.tables(&source.name, paint),
        Asked::Proposition(number) => section.one_proposition(number, is_script, paint)?,
        Asked::Proof(number) => section.one_proof(number, is_script, paint)?,
    };
    Ok(shown.trim_start().to_owned())
}

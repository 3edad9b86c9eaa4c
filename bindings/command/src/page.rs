//! `falgnust page`: a section as one HTML page. The page is page/page.html with the style, the script and the section's JSON put in; the script
//! draws what the JSON has. The policy in its head lets no other script or style run and nothing be loaded.

use crate::Stop;
use crate::args::Args;
use crate::refusal::Refusal;
use crate::section::{self, HEADINGS, Section};
use crate::source::Source;
use falgnust::evr0::RuleTable;

const FRAME: &str = include_str!("page/page.html");
const STYLE: &str = include_str!("page/style.css");
const SCRIPT: &str = include_str!("page/script.js");

pub fn run(mut args: Args, answer: &mut Vec<u8>) -> Result<(), Stop> {
    let at = args.number("--at")?.unwrap_or(0);
    let rules = section::table(&mut args)?;
    let source = Source::read(&args.last("file")?)?;
    let rules = match rules {
        Ok(rules) => rules,
        Err(refused) => return refused.end(false, answer),
    };
    match page(&source, at, rules.as_ref()) {
        Ok(page) => answer.extend(page.bytes()),
        Err(refusal) => refusal.of(source, HEADINGS).end(false, answer)?,
    }
    Ok(())
}

fn page(source: &Source, at: usize, rules: Option<&RuleTable>) -> Result<String, Refusal> {
    let section = Section::decode(&source.bytes, at, rules)?.json(&source.name);
    let mut page = String::new();
    let mut rest = FRAME;
    for (mark, text) in [
        ("{style}", STYLE),
        ("{section}", &section.to_string()),
        ("{script}", SCRIPT),
    ] {
        let (before, after) = rest.split_once(mark).expect("the frame has each mark once");
        page += before;
        page += text;
        rest = after;
    }
    Ok(page + rest)
}

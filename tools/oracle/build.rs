//! Makes the oracle's modules from three Rust files that are not part of this repository.
//!
//! SEMANTIC_SRC names a checkout of skulmakov-oss/Semantic at commit a38c216cab. Its files must have the sums in sources.sha256. They are
//! copied to OUT_DIR as they are, but for two mechanical changes: the functions in reach/ are appended, since what they call is private, and so
//! is the loop of `decode_semcode` as a function of its own. The files of plain/, for what the Rust does not have, are copied beside them, and so
//! are models of it, which are not the Rust: `evr0_ruled`, evr0.rs with other rules, `evr0_wide`, evr0.rs for schema 2, and `evr0_wide_ruled`, with both.

use std::env;
use std::fs;
use std::io::Write;
use std::path::{Path, PathBuf};
use std::process::{Command, Stdio};

const SUMS: &str = include_str!("sources.sha256");
const MODULES: [&str; 3] = ["evr0", "local_format", "semcode_decode"];
const PLAIN: [&str; 6] = ["columns", "compare", "locks", "marks", "rounds", "rules"];

fn main() {
    println!("cargo::rerun-if-changed=build.rs");
    println!("cargo::rerun-if-changed=sources.sha256");
    println!("cargo::rerun-if-env-changed=SEMANTIC_SRC");
    println!("cargo::rerun-if-env-changed=ORACLE_FAULT");
    let sources = sources();
    check_sums(&sources);
    let out = PathBuf::from(env::var_os("OUT_DIR").expect("OUT_DIR"));
    let mut root = String::new();
    for module in MODULES {
        let file = sources.join(module).with_extension("rs");
        println!("cargo::rerun-if-changed={}", file.display());
        let mut text = read(&file);
        let reach = PathBuf::from(format!("reach/{module}.rs"));
        if reach.exists() {
            println!("cargo::rerun-if-changed={}", reach.display());
            text.push_str(&read(&reach));
        }
        text = with_fault(module, text);
        if module == "semcode_decode" {
            text.push_str(&functions_from(&text));
        }
        root.push_str(&copied(&out, module, text));
    }
    let evr0 = read(&sources.join("evr0.rs"));
    for (module, text) in [
        ("evr0_ruled", ruled(&evr0)),
        ("evr0_wide", wide(&evr0)),
        ("evr0_wide_ruled", wide_ruled(&evr0)),
    ] {
        root.push_str(&copied(&out, module, with_fault(module, text)));
    }
    for module in PLAIN {
        let file = PathBuf::from(format!("plain/{module}.rs"));
        println!("cargo::rerun-if-changed={}", file.display());
        root.push_str(&copied(&out, module, with_fault(module, read(&file))));
    }
    fs::write(out.join("modules.rs"), root).expect("a writable OUT_DIR");
}

/// Writes a module, and gives the lines that declare it.
fn copied(out: &Path, module: &str, text: String) -> String {
    let copy = out.join(module).with_extension("rs");
    fs::write(&copy, text).expect("a writable OUT_DIR");
    format!("#[allow(dead_code, clippy::all)]\n#[path = {copy:?}]\npub mod {module};\n")
}

fn read(path: &Path) -> String {
    fs::read_to_string(path).unwrap_or_else(|e| panic!("{}: {e}", path.display()))
}

fn sources() -> PathBuf {
    let folder = env::var_os("SEMANTIC_SRC")
        .expect("SEMANTIC_SRC has to name a checkout of skulmakov-oss/Semantic at a38c216cab");
    let folder = PathBuf::from(folder);
    let inner = folder.join("crates/sm-format/src");
    if inner.is_dir() { inner } else { folder }
}

fn check_sums(sources: &Path) {
    let mut check = Command::new("sha256sum")
        .args(["--check", "--strict", "--quiet"])
        .current_dir(sources)
        .stdin(Stdio::piped())
        .spawn()
        .expect("sha256sum");
    let mut stdin = check.stdin.take().expect("a piped stdin");
    stdin.write_all(SUMS.as_bytes()).expect("sha256sum reads");
    drop(stdin);
    let status = check.wait().expect("sha256sum ends");
    assert!(
        status.success(),
        "the files are not those of commit a38c216cab"
    );
}

/// The place of a text that must stand exactly once.
fn once(text: &str, wanted: &str) -> usize {
    let mut places = text.match_indices(wanted);
    let (at, _) = places
        .next()
        .unwrap_or_else(|| panic!("not found: {wanted:?}"));
    assert!(places.next().is_none(), "found twice: {wanted:?}");
    at
}

/// The loop over functions, as it stands in `decode_semcode`, from any cursor on and under any revision.
fn functions_from(text: &str) -> String {
    let start = once(text, "    let mut functions = Vec::new();\n");
    let end = once(text, "    Ok(DecodedSemCode {\n");
    let steps = &text[start..end];
    once(steps, "header.rev");
    format!(
        "\npub fn functions_from(\n    bytes: &[u8],\n    mut cursor: usize,\n    rev: u16,\n\
         ) -> Result<Vec<DecodedFunctionEnvelope<'_>>, DecodeError> {{\n{}    Ok(functions)\n}}\n",
        steps.replace("header.rev", "rev")
    )
}

/// A model: evr0.rs without its types up to a place, for which others are used, and with some places edited, each of which must stand exactly once.
fn model(text: &str, until: &str, used: &str, places: &[&[Place]]) -> String {
    let (types, rest) = (once(text, ERRORS), once(text, until));
    let mut text = format!("{}{used}\n{}", &text[..types], &text[rest..]);
    for (old, new) in places.iter().copied().flatten() {
        once(&text, old);
        text = text.replacen(old, new, 1);
    }
    text
}

/// A text, and what replaces it.
type Place = (&'static str, &'static str);

/// The first of the types, the first that schema 2 changes, and what follows them.
const ERRORS: &str = "#[derive(Debug, Clone, Copy, PartialEq, Eq)]\npub enum Evr0ErrorKind {\n";
const WITNESS: &str = "#[derive(Debug, Clone, PartialEq, Eq)]\npub struct Witness {\n";
const READER: &str = "struct Reader<'a> {\n";

/// evr0.rs by the rules of a table: in the two places that name rules the caller's table is asked.
fn ruled(text: &str) -> String {
    without_the_four(model(text, READER, RULED_USES, &[&RULED]))
}

/// evr0.rs for schema 2: its number, 92 bytes for a witness, and spans of 8 bytes, held and read. `size_of` then gives 96 by itself.
fn wide(text: &str) -> String {
    model(text, WITNESS, WIDE_USES, &[&WIDE_TYPES, &WIDE])
}

/// The same by the rules of a table.
fn wide_ruled(text: &str) -> String {
    without_the_four(model(text, READER, WIDE_RULED_USES, &[&WIDE, &RULED]))
}

fn without_the_four(text: String) -> String {
    for name in [
        "POS-WITNESS-1",
        "NEG-WITNESS-1",
        "JOIN-SAME-P-1",
        "OP-T-ONLY-1",
    ] {
        assert!(!text.contains(name), "a rule is named elsewhere: {name}");
    }
    text
}

const RULED_USES: &str =
    "use crate::evr0::{DecodedEvr0, Evr0Error, Evr0ErrorKind, Proof, Proposition, Witness};
use crate::rules::Rule;
";

const WIDE_USES: &str = "use crate::evr0::{Evr0Error, Evr0ErrorKind, Proof, Proposition};
";

const WIDE_RULED_USES: &str = "use crate::evr0::{Evr0Error, Evr0ErrorKind, Proof, Proposition};
use crate::evr0_wide::{DecodedEvr0, Witness};
use crate::rules::Rule;
";

const WIDE_TYPES: [Place; 2] = [
    ("pub source_start: u32,", "pub source_start: u64,"),
    ("pub source_end: u32,", "pub source_end: u64,"),
];

const WIDE: [Place; 4] = [
    ("if r.u16()? != 1 {", "if r.u16()? != 2 {"),
    ("[15usize, 35, 84, 4]", "[15usize, 35, 92, 4]"),
    (
        "source_start: r.u32()?,",
        r#"source_start: u64::from_le_bytes(r.take(8)?.try_into().expect("fixed read")),"#,
    ),
    (
        "source_end: r.u32()?,",
        r#"source_end: u64::from_le_bytes(r.take(8)?.try_into().expect("fixed read")),"#,
    ),
];

const RULED: [Place; 3] = [
    (
        "pub fn decode_evr0_section(bytes: &[u8], ",
        "pub fn decode_evr0_section(rules: &[Rule], bytes: &[u8], ",
    ),
    (
        r#"match item.rule_id.as_str() {
            "POS-WITNESS-1" | "NEG-WITNESS-1" => (1, 0, 0),
            "JOIN-SAME-P-1" => (0, 2, 0),
            "OP-T-ONLY-1" => (0, 1, 1),
            _ => return"#,
        r#"match rules.iter().find(|rule| rule.name == item.rule_id) {
            Some(rule) => (rule.witnesses, rule.parents, rule.operation),
            None => return"#,
    ),
    (
        r#"if (proof.rule_id == "POS-WITNESS-1" && witness.polarity != 1)
                || (proof.rule_id == "NEG-WITNESS-1" && witness.polarity != 0)
            {"#,
        r#"let rule = rules.iter().find(|rule| rule.name == proof.rule_id);
            if rule.is_some_and(|rule| rule.polarity != 2 && witness.polarity != rule.polarity) {"#,
    ),
];

/// ORACLE_FAULT plants a fault, to see that a comparison finds it: a module, the text to replace and its replacement, a tab between them.
fn with_fault(module: &str, text: String) -> String {
    let Ok(fault) = env::var("ORACLE_FAULT") else {
        return text;
    };
    let parts: Vec<&str> = fault.split('\t').collect();
    let [place, old, new] = parts[..] else {
        panic!("ORACLE_FAULT is no module, old and new text: {fault:?}");
    };
    if place != module {
        return text;
    }
    once(&text, old);
    text.replacen(old, new, 1)
}

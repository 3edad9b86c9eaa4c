//! Tables of rules, which the Rust does not have, in plain lines from the words of document 02's Slip 8.

/// A rule of a table.
#[derive(Debug, Clone, PartialEq, Eq)]
pub struct Rule {
    pub name: String,
    pub witnesses: u32,
    pub parents: u32,
    pub operation: u8,
    pub polarity: u8,
}

/// A refusal's number, and which of its conditions was met.
pub type Wrong = (u8, &'static str);

/// A 1-byte count, then each rule. The count first, then rule by rule with 69 before 70, bytes left over last.
pub fn load(table: &[u8]) -> Result<Vec<Rule>, Wrong> {
    let (count, mut rest) = match table {
        [] => return Err((69, "no bytes")),
        [0, ..] => return Err((69, "count 0")),
        [33..=255, ..] => return Err((69, "count above 32")),
        [count, rest @ ..] => (*count, rest),
    };
    let mut rules: Vec<Rule> = Vec::new();
    for _ in 0..count {
        let (rule, after) = next(rest).map_err(|why| (69, why))?;
        if rules.iter().any(|known| known.name == rule.name) {
            return Err((70, "a name twice"));
        }
        rules.push(rule);
        rest = after;
    }
    match rest {
        [] => Ok(rules),
        _ => Err((69, "bytes left over")),
    }
}

/// A rule's name as text and its four numbers, a byte each; and what follows them.
fn next(bytes: &[u8]) -> Result<(Rule, &[u8]), &'static str> {
    let (length, bytes) = bytes.split_at_checked(2).ok_or("a name's length cut")?;
    let length = u16::from_le_bytes([length[0], length[1]]);
    let (name, bytes) = match length {
        0 => return Err("a name empty"),
        1..=64 => bytes.split_at_checked(length.into()).ok_or("a name cut")?,
        _ => return Err("a name above 64 bytes"),
    };
    let name = std::str::from_utf8(name).map_err(|_| "a name not UTF-8")?;
    if name.chars().any(char::is_control) {
        return Err("a control character");
    }
    let (numbers, bytes) = bytes.split_at_checked(4).ok_or("a rule's numbers cut")?;
    let &[witnesses, parents, operation, polarity] = numbers else {
        unreachable!("four numbers");
    };
    let on_a_witness = witnesses == 1 && parents == 0 && polarity <= 1;
    let on_parents = witnesses == 0 && (1..=2).contains(&parents) && polarity == 2;
    if !on_a_witness && !on_parents {
        return Err("a rule's shape");
    }
    if operation > 1 {
        return Err("an operation above 1");
    }
    let rule = Rule {
        name: name.to_string(),
        witnesses: witnesses.into(),
        parents: parents.into(),
        operation,
        polarity,
    };
    Ok((rule, bytes))
}

//! The inputs of docs/REFUSALS.md: hexadecimal bytes, `00*16`, `=5`, `#`, `-`, `[256: ..]` and names, as the front of that document says.

use std::collections::HashMap;

/// The bytes that each name stands for.
pub type Names = HashMap<String, Vec<u8>>;

/// The bytes of an input; none where a word is not one of these.
pub fn bytes(text: &str, names: &Names) -> Option<Vec<u8>> {
    let mut rest = text.trim();
    let mut bytes = Vec::new();
    while !rest.is_empty() {
        let end = if rest.starts_with('[') {
            rest.find(']')? + 1
        } else {
            rest.find(' ').unwrap_or(rest.len())
        };
        let word = &rest[..end];
        rest = rest[end..].trim_start();
        if word == "#" {
            let behind = self::bytes(rest, names)?;
            bytes.extend(number(behind.len())?);
            bytes.extend(behind);
            return Some(bytes);
        }
        bytes.extend(if word.starts_with('[') {
            turns(word, names)?
        } else {
            let (word, times) = word.split_once('*').unwrap_or((word, "1"));
            piece(word, names)?.repeat(times.parse().ok()?)
        });
    }
    Some(bytes)
}

/// `[N: WORDS]`: the words with 1, .., N for i and 0, .., N - 1 for j.
fn turns(word: &str, names: &Names) -> Option<Vec<u8>> {
    let (count, words) = word
        .strip_prefix('[')?
        .strip_suffix(']')?
        .split_once(": ")?;
    let mut names = names.clone();
    let mut bytes = Vec::new();
    for turn in 1..=count.parse().ok()? {
        names.insert("i".to_owned(), number(turn)?);
        names.insert("j".to_owned(), number(turn - 1)?);
        bytes.extend(self::bytes(words, &names)?);
    }
    Some(bytes)
}

fn piece(word: &str, names: &Names) -> Option<Vec<u8>> {
    if let Some(bytes) = names.get(word) {
        return Some(bytes.clone());
    }
    if let Some(digits) = word.strip_prefix('=') {
        return number(digits.parse().ok()?);
    }
    if word == "-" {
        return Some(Vec::new());
    }
    let (pairs, rest) = word.as_bytes().as_chunks::<2>();
    let pair = |pair: &[u8; 2]| u8::from_str_radix(str::from_utf8(pair).ok()?, 16).ok();
    rest.is_empty().then(|| pairs.iter().map(pair).collect())?
}

/// A number of 4 bytes.
fn number(n: usize) -> Option<Vec<u8>> {
    Some(u32::try_from(n).ok()?.to_le_bytes().to_vec())
}

#[cfg(test)]
mod tests {
    use super::*;

    #[test]
    fn words_are_bytes() {
        let names = Names::from([("F".to_owned(), vec![1, 2])]);
        let read = |text| bytes(text, &names);
        assert_eq!(read("-"), Some(vec![]));
        assert_eq!(read("0AFF 00*3 F"), Some(vec![10, 255, 0, 0, 0, 1, 2]));
        assert_eq!(
            read("=258 # F*2"),
            Some(vec![2, 1, 0, 0, 4, 0, 0, 0, 1, 2, 1, 2])
        );
        assert_eq!(
            read("[2: i j F]"),
            Some(vec![
                1, 0, 0, 0, 0, 0, 0, 0, 1, 2, 2, 0, 0, 0, 1, 0, 0, 0, 1, 2
            ])
        );
        assert_eq!((read("xyz"), read("0"), read("=-1")), (None, None, None));
    }
}

//! Texts of a file, as a terminal may be given them.

/// The most characters of a text in a table.
const MOST: usize = 120;

/// In quotes. Control characters, marks of direction and others that do not show stand as `\u{..}`. The end of a long text is left out.
pub fn shown(text: &str) -> String {
    let count = text.chars().count();
    if count <= MOST {
        return format!("{text:?}");
    }
    let front: String = text.chars().take(MOST).collect();
    format!("{front:?}.. ({count} characters)")
}

/// A count with its noun.
pub fn count(count: usize, noun: &str) -> String {
    let plural = match (count, noun.ends_with('s')) {
        (1, _) => "",
        (_, true) => "es",
        (_, false) => "s",
    };
    format!("{} {noun}{plural}", thousands(count))
}

/// With a comma after each three digits from the right.
pub fn thousands(number: usize) -> String {
    let digits = number.to_string();
    let mut text = String::new();
    for (at, digit) in digits.chars().enumerate() {
        if at > 0 && (digits.len() - at).is_multiple_of(3) {
            text.push(',');
        }
        text.push(digit);
    }
    text
}

/// Bytes as hexadecimal digits.
pub fn hex(bytes: &[u8]) -> String {
    bytes.iter().map(|byte| format!("{byte:02x}")).collect()
}

#[cfg(test)]
mod tests {
    use super::*;

    #[test]
    fn what_does_not_show_is_escaped() {
        assert_eq!(
            shown("Åsa \u{202e}<b>\u{1b}[1m"),
            r#""Åsa \u{202e}<b>\u{1b}[1m""#
        );
        for hidden in [
            "\u{200b}", "\u{200f}", "\u{2028}", "\u{2066}", "\u{feff}", "\u{85}",
        ] {
            assert!(shown(hidden).is_ascii());
        }
    }

    #[test]
    fn a_long_text_ends() {
        assert!(shown(&"x".repeat(4096)).ends_with("x\".. (4096 characters)"));
    }

    #[test]
    fn thousands_have_commas() {
        assert_eq!(
            [1, 999, 1000, 1234567].map(thousands),
            ["1", "999", "1,000", "1,234,567"]
        );
    }
}

//! JSON in ASCII: every other character of a text is escaped, and so are those that mean something in HTML, so that what is written may
//! stand on a terminal and in a page's script element.

use std::fmt::{self, Display, Formatter, Write};

/// A value.
pub enum Json {
    Null,
    Bool(bool),
    Number(u64),
    Text(String),
    List(Vec<Json>),
    Object(Vec<(&'static str, Json)>),
}

/// A list of what can be a value.
pub fn list<T: Into<Json>>(items: impl IntoIterator<Item = T>) -> Json {
    Json::List(items.into_iter().map(Into::into).collect())
}

impl Display for Json {
    fn fmt(&self, f: &mut Formatter) -> fmt::Result {
        match self {
            Json::Null => f.write_str("null"),
            Json::Bool(value) => write!(f, "{value}"),
            Json::Number(value) => write!(f, "{value}"),
            Json::Text(text) => write_text(f, text),
            Json::List(items) => {
                f.write_char('[')?;
                for (at, item) in items.iter().enumerate() {
                    f.write_str(if at > 0 { "," } else { "" })?;
                    let is_record = matches!(item, Json::Object(_));
                    f.write_str(if is_record { "\n" } else { "" })?;
                    item.fmt(f)?;
                }
                f.write_char(']')
            }
            Json::Object(fields) => {
                f.write_char('{')?;
                for (at, (name, value)) in fields.iter().enumerate() {
                    f.write_str(if at > 0 { "," } else { "" })?;
                    write_text(f, name)?;
                    f.write_char(':')?;
                    value.fmt(f)?;
                }
                f.write_char('}')
            }
        }
    }
}

fn write_text(f: &mut Formatter, text: &str) -> fmt::Result {
    f.write_char('"')?;
    for c in text.chars() {
        match c {
            '"' | '\\' => write!(f, "\\{c}")?,
            '<' | '>' | '&' | '\'' | '\0'..' ' | '\u{7f}'.. => {
                for unit in c.encode_utf16(&mut [0; 2]) {
                    write!(f, "\\u{unit:04x}")?;
                }
            }
            _ => f.write_char(c)?,
        }
    }
    f.write_char('"')
}

macro_rules! from_numbers {
    ($($number:ty)*) => {
        $(impl From<$number> for Json {
            fn from(value: $number) -> Self {
                Json::Number(value as u64)
            }
        })*
    };
}

from_numbers! { u8 u16 u32 u64 usize }

impl From<bool> for Json {
    fn from(value: bool) -> Self {
        Json::Bool(value)
    }
}

impl From<String> for Json {
    fn from(value: String) -> Self {
        Json::Text(value)
    }
}

impl From<&str> for Json {
    fn from(value: &str) -> Self {
        Json::Text(value.to_owned())
    }
}

#[cfg(test)]
mod tests {
    use super::*;

    #[test]
    fn texts_are_ascii_without_html() {
        let text = "</script>&'\"\\\u{2028}\u{202e}\n\u{7f}Å\u{1f600}";
        let escaped =
            r#""\u003c/script\u003e\u0026\u0027\"\\\u2028\u202e\u000a\u007f\u00c5\ud83d\ude00""#;
        assert_eq!(Json::from(text).to_string(), escaped);
    }

    #[test]
    fn records_stand_on_lines() {
        let record = || Json::Object(vec![("a", 1u8.into()), ("b", list([true]))]);
        assert_eq!(
            list([record(), record()]).to_string(),
            "[\n{\"a\":1,\"b\":[true]},\n{\"a\":1,\"b\":[true]}]"
        );
    }
}

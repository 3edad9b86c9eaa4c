//! The bytes around a place, in hexadecimal, with the place marked.

use crate::paint::{Paint, Style};
use crate::text;

const ROW: usize = 16;
/// How many rows are shown before and after the marked one.
const AROUND: usize = 2;

/// All rows. The byte at a place stands in brackets; where the bytes end there, so does an empty place.
pub fn all(bytes: &[u8], place: Option<usize>, paint: Paint) -> String {
    rows(bytes, place, bytes.len() / ROW, paint)
}

/// Some rows around the place.
pub fn around(bytes: &[u8], place: usize, paint: Paint) -> String {
    rows(bytes, Some(place), AROUND, paint)
}

/// So many rows before and after that of the place, or of the start.
fn rows(bytes: &[u8], place: Option<usize>, around: usize, paint: Paint) -> String {
    let marked = place.map(|place| place.min(bytes.len()));
    let middle = marked.unwrap_or(0) / ROW;
    let rows = middle.saturating_sub(around)..=middle + around;
    let is_there = |row: &usize| row * ROW < bytes.len() || marked.is_some() && *row == middle;
    let there = rows.filter(is_there);
    let mut lines: String = there
        .map(|at| row(bytes, at * ROW, marked, paint))
        .collect();
    match place {
        Some(place) if place > bytes.len() => {
            let end = text::thousands(bytes.len());
            lines += &format!("  the place is past the end, which is at {end}\n");
        }
        Some(place) if place == bytes.len() => lines += "  the place is the end of the bytes\n",
        _ => {}
    }
    lines
}

fn row(bytes: &[u8], start: usize, marked: Option<usize>, paint: Paint) -> String {
    let mut line = format!("  {start:08x} ");
    let mut letters = String::new();
    let after = marked.map(|marked| marked + 1);
    for place in start..start + ROW {
        let byte = bytes.get(place);
        let digits = byte.map_or("  ".to_owned(), |byte| format!("{byte:02x}"));
        line += &match Some(place) {
            here if here == marked => paint.text(Style::Red, &format!("[{digits}]")),
            here if here == after && place > start => digits,
            _ => format!(" {digits}"),
        };
        letters.extend(byte.map(|byte| match byte {
            b' '..=b'~' => *byte as char,
            _ => '.',
        }));
    }
    format!("{line}  {letters}").trim_end().to_owned() + "\n"
}

#[cfg(test)]
mod tests {
    use super::*;

    fn plain(bytes: &[u8], place: usize) -> String {
        around(bytes, place, Paint::NONE)
    }

    #[test]
    fn a_byte_is_marked() {
        let lines = plain(b"EVR0\x01\x00", 4);
        assert_eq!(
            lines,
            format!("  00000000  45 56 52 30[01]00{}  EVR0..\n", " ".repeat(30))
        );
    }

    #[test]
    fn the_end_is_marked() {
        assert!(plain(b"EVR0", 4).starts_with("  00000000  45 56 52 30[  ]"));
        assert!(plain(b"EVR0", 4).ends_with("the place is the end of the bytes\n"));
        assert!(plain(&[0; 16], 16).contains("\n  00000010 [  ]"));
        assert!(plain(b"", 9).ends_with("past the end, which is at 0\n"));
    }

    #[test]
    fn the_last_and_the_first_of_a_row_are_marked() {
        assert!(plain(&[7; 32], 15).contains(" 07[07]  ..."));
        assert!(plain(&[7; 32], 16).contains("00000010 [07]07 07"));
    }

    #[test]
    fn no_place_is_marked() {
        let lines = all(&[7; 17], None, Paint::NONE);
        assert!(lines.lines().count() == 2 && !lines.contains('['));
        assert_eq!(all(b"", None, Paint::NONE), "");
    }

    #[test]
    fn a_few_rows_are_shown() {
        assert_eq!(plain(&[0; 4096], 2048).lines().count(), 5);
    }
}

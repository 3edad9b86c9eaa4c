//! Tables for a person. Columns are aligned, but for the last, which may hold a text of the file: nothing stands behind such a text.

use crate::paint::{Paint, Style};

/// A cell with its colour; a number stands to the right.
pub struct Cell {
    text: String,
    style: Style,
    is_number: bool,
}

pub fn text(text: impl Into<String>) -> Cell {
    styled(text, Style::Plain)
}

pub fn styled(text: impl Into<String>, style: Style) -> Cell {
    Cell {
        text: text.into(),
        style,
        is_number: false,
    }
}

pub fn number(number: impl ToString) -> Cell {
    Cell {
        text: number.to_string(),
        style: Style::Plain,
        is_number: true,
    }
}

/// A title, the columns' names, and the rows.
pub struct Table<const N: usize> {
    pub title: &'static str,
    pub names: [&'static str; N],
    pub rows: Vec<[Cell; N]>,
}

impl<const N: usize> Table<N> {
    /// The lines, with an empty one before them; none where there is no row.
    pub fn lines(&self, paint: Paint) -> String {
        let Some(first) = self.rows.first() else {
            return String::new();
        };
        let widths: [usize; N] = std::array::from_fn(|at| {
            let cells = self.rows.iter().map(|row| row[at].text.chars().count());
            cells.max().unwrap_or(0).max(self.names[at].len())
        });
        let names = std::array::from_fn(|at| Cell {
            text: self.names[at].to_owned(),
            style: Style::Dim,
            is_number: first[at].is_number,
        });
        let mut lines = format!("\n{}\n", paint.text(Style::Bold, self.title));
        for row in std::iter::once(&names).chain(&self.rows) {
            lines += &line(row, &widths, paint);
        }
        lines
    }
}

fn line<const N: usize>(row: &[Cell; N], widths: &[usize; N], paint: Paint) -> String {
    let mut line = String::new();
    for (at, cell) in row.iter().enumerate() {
        let space = " ".repeat(widths[at] - cell.text.chars().count());
        let text = paint.text(cell.style, &cell.text);
        line += "  ";
        line += &match cell.is_number {
            true => space + &text,
            false if at + 1 == N => text,
            false => text + &space,
        };
    }
    line.trim_end().to_owned() + "\n"
}

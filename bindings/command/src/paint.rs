//! Colours, on a terminal alone.

use std::io::IsTerminal;

/// Whether to colour.
#[derive(Clone, Copy)]
pub struct Paint(bool);

/// A colour or weight, as a terminal's number of it.
#[derive(Clone, Copy, PartialEq)]
pub enum Style {
    Plain = 0,
    Bold = 1,
    Dim = 2,
    Red = 31,
    Green = 32,
    Yellow = 33,
}

impl Paint {
    /// No colours.
    #[cfg(test)]
    pub const NONE: Paint = Paint(false);

    /// Colours where it is a terminal that is not called dumb, and `NO_COLOR` is not set.
    pub fn of(out: &impl IsTerminal) -> Self {
        let set = |name| std::env::var_os(name).filter(|value| !value.is_empty());
        Paint(
            out.is_terminal()
                && set("NO_COLOR").is_none()
                && set("TERM").is_none_or(|term| term != "dumb"),
        )
    }

    pub fn text(self, style: Style, text: &str) -> String {
        if self.0 && style != Style::Plain {
            format!("\x1b[{}m{text}\x1b[0m", style as u8)
        } else {
            text.to_owned()
        }
    }
}

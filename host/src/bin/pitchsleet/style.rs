//! Colours, where they are wanted.
use std::io::IsTerminal;

use crate::args::Color;

/// How words are marked in what is written to one output.
#[derive(Clone, Copy, Debug)]
pub struct Style {
    coloured: bool,
}

impl Style {
    /// For an output that is a terminal or not. `NO_COLOR` counts where it is set to anything but nothing (no-color.org).
    pub fn of(color: Color, output: &impl IsTerminal) -> Self {
        let said = |name: &str| std::env::var_os(name).filter(|value| !value.is_empty());
        let coloured = match color {
            Color::Always => true,
            Color::Never => false,
            Color::Auto => {
                output.is_terminal() && said("NO_COLOR").is_none() && said("TERM").is_none_or(|term| term != "dumb")
            }
        };
        Self { coloured }
    }

    pub fn place(self, words: &str) -> String {
        self.marked("1", words)
    }

    pub fn refused(self, words: &str) -> String {
        self.marked("1;31", words)
    }

    pub fn accepted(self, words: &str) -> String {
        self.marked("1;32", words)
    }

    pub fn warning(self, words: &str) -> String {
        self.marked("1;33", words)
    }

    pub fn note(self, words: &str) -> String {
        self.marked("1;36", words)
    }

    fn marked(self, code: &str, words: &str) -> String {
        match self.coloured {
            true => format!("\x1b[{code}m{words}\x1b[0m"),
            false => words.to_owned(),
        }
    }
}

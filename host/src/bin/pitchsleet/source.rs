//! A text with its name, and parts of its lines that are fit for a terminal.
use std::ffi::OsStr;

use pitchsleet::{Lines, Printable};

use crate::args::shown;

/// How much of a long line is shown before the place, and from it on, in bytes.
const BEFORE: usize = 60;
const AFTER: usize = 40;

/// What stands where more of a line is left out.
const CUT: &str = "..";

/// How a tab is shown.
const TAB: &str = "    ";

pub struct Source<'t> {
    /// The file's name, and how it is shown to a person.
    pub file: &'t OsStr,
    pub name: String,
    pub text: &'t [u8],
    pub lines: Lines<'t>,
}

/// Some bytes of a text in a row.
#[derive(Clone, Copy, Debug, PartialEq, Eq)]
pub struct Span {
    pub place: usize,
    pub length: usize,
}

/// A part of a line that is fit for a terminal; how many characters stand left of what is meant, and how many are meant.
pub struct Excerpt {
    pub line: String,
    pub left: usize,
    pub width: usize,
}

impl<'t> Source<'t> {
    pub fn new(file: &'t OsStr, text: &'t [u8]) -> Self {
        Self { file, name: shown(file), text, lines: Lines::new(text) }
    }

    /// `NAME:LINE:COLUMN`, where an editor goes to.
    pub fn at(&self, place: usize) -> String {
        format!("{}:{}", self.name, self.lines.position(place))
    }

    /// The line of a place, cut around it where it is long.
    pub fn excerpt(&self, span: Span) -> Excerpt {
        self.part(span, BEFORE, AFTER)
    }

    /// The whole line of a place.
    pub fn whole_line(&self, span: Span) -> Excerpt {
        self.part(span, usize::MAX, self.text.len())
    }

    fn part(&self, span: Span, before: usize, after: usize) -> Excerpt {
        let line = self.lines.position(span.place).line;
        let start = self.lines.start(line).expect("a position's line is one of the text's");
        // The place may be that of the newline, or of a carriage return before it.
        let end = (start + self.lines.get(line).map_or(0, <[u8]>::len)).max(span.place.min(self.text.len()));
        let (from, to) = (start.max(span.place.saturating_sub(before)), end.min(span.place + after));
        let mut shown = String::new();
        if start < from {
            shown.push_str(CUT);
        }
        shown.push_str(&fit(&self.text[from..span.place]));
        let left = shown.len();
        let meant = fit(&self.text[span.place..to.min(span.place + span.length)]);
        shown.push_str(&meant);
        shown.push_str(&fit(&self.text[to.min(span.place + span.length)..to]));
        if to < end {
            shown.push_str(CUT);
        }
        Excerpt { line: shown, left, width: meant.len().max(1) }
    }
}

impl Span {
    pub fn byte(place: usize) -> Self {
        Self { place, length: 1 }
    }
}

/// Bytes of a line as they are shown: all of it is printable ASCII, so that a character is a byte wide.
pub fn fit(bytes: &[u8]) -> String {
    let pieces: Vec<String> = bytes.split(|&byte| byte == b'\t').map(|piece| Printable(piece).to_string()).collect();
    pieces.join(TAB)
}

//! Lines and columns, as editors count them.
use core::fmt::{self, Display, Formatter};

/// The lines of a text as an editor shows them: every newline ends one, also in a comment.
///
/// A [`Token::line`](crate::Token::line) and a [`Refusal::line`](crate::Refusal::line) are counted as the Rust original
/// counts, without the newlines in comments. Their places are exact, and here a place becomes the line and column to go to.
///
/// ```
/// use pitchsleet::{Lines, Reader};
///
/// let text = b"# a rule\n@f {\n  nop $;\n}";
/// let refusal = Reader::new().check(text).unwrap_err();
/// assert_eq!(refusal.line(), 2, "the comment's newline isn't counted");
///
/// let lines = Lines::new(text);
/// let position = lines.position(refusal.place());
/// assert_eq!((position.line, position.column), (3, 7));
/// assert_eq!(position.to_string(), "3:7");
/// assert_eq!(lines.get(position.line), Some(&b"  nop $;"[..]));
/// ```
#[derive(Clone, Debug, PartialEq, Eq)]
pub struct Lines<'t> {
    text: &'t [u8],
    /// Where each line begins.
    starts: Vec<usize>,
}

/// A line and a column of a text, both from 1. Columns count bytes.
#[derive(Clone, Copy, Debug, PartialEq, Eq, PartialOrd, Ord, Hash)]
pub struct Position {
    /// The line: one more than the newlines before it.
    pub line: usize,
    /// The column: one more than the bytes between the line's start and it.
    pub column: usize,
}

impl<'t> Lines<'t> {
    /// The lines of a text. There is always one, also in a text without a byte, and one more behind a last newline.
    #[must_use]
    pub fn new(text: &'t [u8]) -> Self {
        let newlines = text.iter().enumerate().filter(|(_, byte)| **byte == b'\n');
        let starts = [0].into_iter().chain(newlines.map(|(at, _)| at + 1)).collect();
        Self { text, starts }
    }

    /// Where the byte at a place stands. A newline stands at its line's end, and a place behind the text at the text's.
    #[must_use]
    pub fn position(&self, place: usize) -> Position {
        let place = place.min(self.text.len());
        let line = self.starts.partition_point(|&start| start <= place);
        Position { line, column: place - self.starts[line - 1] + 1 }
    }

    /// The place where a line begins; none for a line that there isn't.
    #[must_use]
    pub fn start(&self, line: usize) -> Option<usize> {
        self.starts.get(line.checked_sub(1)?).copied()
    }

    /// The bytes of a line, from 1 on, without its newline or a carriage return before that; none for a line that there
    /// isn't.
    #[must_use]
    pub fn get(&self, line: usize) -> Option<&'t [u8]> {
        let start = self.start(line)?;
        let Some(next) = self.start(line + 1) else {
            return Some(&self.text[start..]);
        };
        let bytes = &self.text[start..next - 1];
        Some(bytes.strip_suffix(b"\r").unwrap_or(bytes))
    }

    /// How many lines there are.
    #[must_use]
    pub fn count(&self) -> usize {
        self.starts.len()
    }
}

/// `LINE:COLUMN`
impl Display for Position {
    fn fmt(&self, f: &mut Formatter<'_>) -> fmt::Result {
        write!(f, "{}:{}", self.line, self.column)
    }
}

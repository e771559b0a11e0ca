//! The headers of an accepted text, which a new function is held to.
use core::fmt::{self, Debug, Formatter};

use crate::raw::{self, CELL_BYTES, FUNCTION_CELLS, TABLE_BYTES, TABLE_CELLS};
use crate::records::{function_records, index, record};

/// The headers of an accepted text: the text, and the table of its functions as a check wrote it.
///
/// [`Unit::headers`](crate::Unit::headers) makes them. They are a value of their own, so that they outlive the reader's
/// next call, and [`Reader::recheck`](crate::Reader::recheck) holds a new function to them.
///
/// ```
/// use pitchsleet::Reader;
///
/// let mut reader = Reader::new();
/// let headers = reader.check(b"@low: int { x: int = const 1; ret x; }\n@main { y: int = call @low; }")?.headers();
/// assert_eq!(headers.names().collect::<Vec<_>>(), ["@low", "@main"]);
/// assert_eq!(headers.position("@main"), Some(1));
/// assert_eq!(headers.line(1), Some(2));
/// # Ok::<(), pitchsleet::Refusal>(())
/// ```
#[derive(Clone, PartialEq, Eq)]
pub struct Headers {
    text: Box<str>,
    // As check wrote it, cell for cell: what recheck promises of it rests on that.
    table: Box<[u32; TABLE_CELLS]>,
}

impl Headers {
    /// A copy of a text and of its table.
    pub(crate) fn new(text: &str, table: &[u32; TABLE_CELLS]) -> Self {
        Self { text: text.into(), table: Box::new(*table) }
    }

    /// How many functions the text has: at most 64.
    #[must_use]
    pub fn len(&self) -> usize {
        index(&self.table[..], 0)
    }

    /// Whether the text has none.
    #[must_use]
    pub fn is_empty(&self) -> bool {
        self.len() == 0
    }

    /// The name of the function with a number, its `@` with it.
    #[must_use]
    pub fn name(&self, number: usize) -> Option<&str> {
        let row = self.row(number)?;
        Some(&self.text[index(row, raw::FUNCTION_PLACE)..][..index(row, raw::FUNCTION_LENGTH)])
    }

    /// The line of the name of the function with a number, on which lines start where it is replaced. Newlines in
    /// comments are not counted.
    #[must_use]
    pub fn line(&self, number: usize) -> Option<u32> {
        self.row(number).map(|row| row[raw::FUNCTION_LINE])
    }

    /// The names of the functions, in the order of the text. One may be there twice.
    #[must_use]
    pub fn names(&self) -> impl ExactSizeIterator<Item = &str> + DoubleEndedIterator + Clone {
        (0..self.len()).map(|number| self.name(number).expect("the count is the table's"))
    }

    /// The number of the function with a name, its `@` with it: of several the first, which is the one that a call of
    /// this name means.
    #[must_use]
    pub fn position(&self, name: &str) -> Option<usize> {
        self.names().position(|known| known == name)
    }

    /// The text.
    #[must_use]
    pub fn text(&self) -> &str {
        &self.text
    }

    /// The table as a check wrote it, for [`raw::recheck_cells`].
    #[must_use]
    pub fn table_cells(&self) -> &[u32; TABLE_CELLS] {
        &self.table
    }

    /// The same table as bytes, for [`raw::recheck`]: each cell as four, the lowest first. They are made anew by each call.
    #[must_use]
    pub fn table(&self) -> [u8; TABLE_BYTES] {
        let mut bytes = [0; TABLE_BYTES];
        let (places, _) = bytes.as_chunks_mut::<CELL_BYTES>();
        for (place, cell) in places.iter_mut().zip(&self.table[..]) {
            *place = cell.to_le_bytes();
        }
        bytes
    }

    fn row(&self, number: usize) -> Option<&[u32; FUNCTION_CELLS]> {
        record(function_records(&self.table, self.len()), number)
    }
}

impl Debug for Headers {
    fn fmt(&self, f: &mut Formatter<'_>) -> fmt::Result {
        f.debug_list().entries(self.names()).finish()
    }
}

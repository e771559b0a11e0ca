//! A unit that borrows nothing.
use core::fmt::{self, Debug, Formatter};

use crate::raw::TABLE_CELLS;
use crate::reader::Tokens;
use crate::records::function_records;
use crate::unit::Unit;

/// An accepted text and all that a check found in it, as a value of its own: it outlives the reader's next call and the
/// text that was handed over.
///
/// [`Unit::into_owned`] makes it, and [`OwnedUnit::unit`] looks into it. It takes as much room as the text and its records
/// need, and 11,524 bytes for the table of functions.
///
/// ```
/// use pitchsleet::{OwnedUnit, Reader, Refusal};
///
/// fn checked(rules: &str) -> Result<OwnedUnit, Refusal> {
///     Ok(Reader::new().check(rules.as_bytes())?.into_owned())
/// }
///
/// let night = checked("@night { nop; }")?;
/// let day = checked("@day { nop; }")?;
/// assert_ne!(night, day);
/// assert_eq!(night.unit().functions().next().map(|function| function.name().spelling), Some("@night"));
/// # Ok::<(), Refusal>(())
/// ```
#[derive(Clone, PartialEq, Eq)]
pub struct OwnedUnit {
    text: Box<str>,
    tokens: Box<[u32]>,
    names: Box<[u32]>,
    table: Box<[u32; TABLE_CELLS]>,
    function_count: usize,
    items: Box<[u32]>,
    arguments: Box<[u32]>,
    blocks: Box<[u32]>,
    predecessors: Box<[u32]>,
}

impl OwnedUnit {
    /// What it holds, to look at.
    #[must_use]
    pub fn unit(&self) -> Unit<'_, '_> {
        Unit {
            tokens: Tokens { text: &self.text, tokens: &self.tokens, names: &self.names },
            table: &self.table,
            functions: function_records(&self.table, self.function_count),
            items: &self.items,
            arguments: &self.arguments,
            blocks: &self.blocks,
            predecessors: &self.predecessors,
        }
    }

    /// The text.
    #[must_use]
    pub fn text(&self) -> &str {
        &self.text
    }
}

impl From<Unit<'_, '_>> for OwnedUnit {
    fn from(unit: Unit<'_, '_>) -> Self {
        Self {
            text: unit.tokens.text.into(),
            tokens: unit.tokens.tokens.into(),
            names: unit.tokens.names.into(),
            table: Box::new(*unit.table),
            function_count: unit.function_count(),
            items: unit.items.into(),
            arguments: unit.arguments.into(),
            blocks: unit.blocks.into(),
            predecessors: unit.predecessors.into(),
        }
    }
}

impl Debug for OwnedUnit {
    fn fmt(&self, f: &mut Formatter<'_>) -> fmt::Result {
        Debug::fmt(&self.unit(), f)
    }
}

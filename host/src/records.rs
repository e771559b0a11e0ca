//! Records and their cells, as docs/INTERFACE.md lays them out.
use crate::raw::{FUNCTION_CELLS, FUNCTIONS_FIRST, TABLE_CELLS};

/// The record at an index; none past the last.
pub(crate) fn record<const CELLS: usize>(records: &[u32], index: usize) -> Option<&[u32; CELLS]> {
    let (records, _) = records.as_chunks::<CELLS>();
    records.get(index)
}

/// The first so many function records of a header table.
pub(crate) fn function_records(table: &[u32; TABLE_CELLS], count: usize) -> &[u32] {
    &table[FUNCTIONS_FIRST..][..count * FUNCTION_CELLS]
}

/// A cell that counts or points at something.
pub(crate) fn index(record: &[u32], cell: usize) -> usize {
    record[cell] as usize
}

//! Slices of cells to lend to the C functions that take them.
use pitchsleet::raw::{self, CheckAnswer, ReadAnswer, Slices};

/// A slice for each kind of record, in the functions' order, and a message.
#[derive(Clone, Debug, PartialEq, Eq)]
pub struct LentCells {
    pub slices: [Vec<u32>; 7],
    pub message: Vec<u8>,
}

impl LentCells {
    /// Slices of these lengths, which hold a pattern: every cell differs from its neighbours, and none is zero.
    pub fn new(lengths: [usize; 7], message: usize) -> Self {
        Self {
            slices: lengths.map(|length| (0..length).map(|at| at as u32 % 65_521 + 1).collect()),
            message: (0..message).map(|at| (at % 251) as u8 + 1).collect(),
        }
    }

    /// The tokens and names are lent, the others are not.
    pub fn read(&mut self, text: &[u8]) -> ReadAnswer {
        let [tokens, names, ..] = &mut self.slices;
        raw::read_cells(text, tokens, names, &mut self.message)
    }

    pub fn check(&mut self, text: &[u8]) -> CheckAnswer {
        raw::check_cells(text, lend(&mut self.slices), &mut self.message)
    }

    pub fn recheck(&mut self, old: &[u8], table: &[u32], number: u32, new: &[u8]) -> CheckAnswer {
        raw::recheck_cells(old, table, number, new, lend(&mut self.slices), &mut self.message)
    }
}

fn lend(slices: &mut [Vec<u32>; 7]) -> Slices<'_> {
    let [tokens, names, functions, items, arguments, blocks, predecessors] = slices;
    Slices { tokens, names, functions, items, arguments, blocks, predecessors }
}

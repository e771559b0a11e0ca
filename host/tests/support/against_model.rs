//! This crate and the C functions, those on bytes and those on cells, against the model of document 01: every field, and
//! every byte and cell lent.
use std::fmt::Debug;

use pitchsleet::raw::{self, CheckAnswer, ReadAnswer};
use pitchsleet::{Headers, Reader};

use super::by_crate::{by_checker, by_reader, by_rechecker};
use super::edits::{Edit, Quadruple, table_of};
use super::lent_cells::LentCells;
use super::model::{self, Checked};
use super::records::{Cells, SIZES, cells_of};
use super::said::{Said, Verdict};

/// A reader, and slices to lend, longer than their sizes and full of what the text before left there.
pub struct Lent {
    reader: Reader,
    read_out: Vec<u8>,
    check_out: Vec<u8>,
    message: Vec<u8>,
    cells: LentCells,
}

/// How much longer they are, in bytes or cells.
const MORE: usize = 7;

impl Lent {
    pub fn new() -> Self {
        Self {
            reader: Reader::new(),
            read_out: vec![0xa5; raw::OUT_BYTES + MORE],
            check_out: vec![0xa5; raw::CHECK_OUT_BYTES + MORE],
            message: vec![0xa5; raw::MESSAGE_BYTES + MORE],
            cells: LentCells::new(SIZES.map(|size| size + MORE), raw::MESSAGE_BYTES + MORE),
        }
    }

    /// What the reader says of a text. The reader and both C functions must answer what the model says, in every field
    /// and in every byte and cell lent.
    pub fn compare_read(&mut self, text: &[u8]) -> Result<Said, String> {
        let expected = model::read(text);
        let said = by_reader(&mut self.reader, text);
        same(&said, &expected)?;
        let cells = Cells::of_read(&expected);
        let answer = raw::read(text, &mut self.read_out, &mut self.message);
        let by_cells = self.cells.read(text);
        self.same_families((&answer, &by_cells), &self.read_out, 2)?;
        same_answer(&answer, &read_answer(&expected, &cells))?;
        same_bytes("records", &self.read_out, &cells.bytes(2))?;
        same_bytes("message", &self.message, expected.message())?;
        Ok(said)
    }

    /// The same of a text that is checked.
    pub fn compare_check(&mut self, text: &[u8]) -> Result<Checked, String> {
        let expected = model::check(text);
        let said = by_checker(&mut self.reader, text);
        same(&said, &expected.said)?;
        let (answer, _) = self.check(text)?;
        self.same_lent(&answer, &expected.said)?;
        Ok(expected)
    }

    /// The same of an edit that is rechecked, with the table that check wrote for the old text. The reader is handed
    /// that as headers, and the C functions as bytes and as cells.
    pub fn compare_edit(&mut self, edit: &Edit) -> Result<Said, String> {
        let Edit { old, before, number, new } = edit;
        let headers = self.headers(old)?;
        let table = headers.table().to_vec();
        if Some(cells_of(&table)) != table_of(before) {
            return Err("the old text's header table is not what the model says".to_owned());
        }
        let said = by_rechecker(&mut self.reader, &headers, *number, new);
        let quadruple = Quadruple { old: old.clone(), table, number: *number as u32, new: new.clone() };
        same(&said, &self.compare_recheck(&quadruple)?)?;
        Ok(said)
    }

    /// The same of the C functions alone, which are lent any table.
    pub fn compare_recheck(&mut self, quadruple: &Quadruple) -> Result<Said, String> {
        let Quadruple { old, table, number, new } = quadruple;
        let expected = model::recheck(old, &cells_of(table), *number, new).said;
        let (answer, _) = self.recheck(old, table, *number, new)?;
        self.same_lent(&answer, &expected)?;
        Ok(expected)
    }

    /// What the C functions answer, and what the one on bytes leaves in `out`: the one on cells must leave the same.
    pub fn check(&mut self, text: &[u8]) -> Result<(CheckAnswer, &[u8]), String> {
        let answer = raw::check(text, &mut self.check_out, &mut self.message);
        let by_cells = self.cells.check(text);
        self.same_families((&answer, &by_cells), &self.check_out, SIZES.len())?;
        Ok((answer, &self.check_out))
    }

    /// The same of a recheck. Of a table whose bytes are no whole cells both take the whole ones.
    pub fn recheck(
        &mut self,
        old: &[u8],
        table: &[u8],
        number: u32,
        new: &[u8],
    ) -> Result<(CheckAnswer, &[u8]), String> {
        let answer = raw::recheck(old, table, number, new, &mut self.check_out, &mut self.message);
        let by_cells = self.cells.recheck(old, &cells_of(table), number, new);
        self.same_families((&answer, &by_cells), &self.check_out, SIZES.len())?;
        Ok((answer, &self.check_out))
    }

    fn headers(&mut self, old: &[u8]) -> Result<Headers, String> {
        let unit = self.reader.check(old).map_err(|refusal| format!("the old text is {refusal}"))?;
        Ok(unit.headers())
    }

    /// The same answer of both families, the same message, and in the first so many slices the cells that `out` has as
    /// bytes, with zeros behind.
    fn same_families<A: PartialEq + Debug>(&self, answers: (&A, &A), out: &[u8], slices: usize) -> Result<(), String> {
        let (by_bytes, by_cells) = answers;
        if by_bytes != by_cells {
            return Err(format!("the C function on bytes answers {by_bytes:?}\n  that on cells {by_cells:?}"));
        }
        if self.message != self.cells.message {
            return Err("the C functions on bytes and on cells leave two messages".to_owned());
        }
        let mut rest = out;
        for (number, (cells, size)) in self.cells.slices.iter().zip(SIZES).take(slices).enumerate() {
            let (room, behind) = rest.split_at(4 * size);
            rest = behind;
            let (front, more) = cells.split_at(size);
            let (room, _) = room.as_chunks::<4>();
            let at = front.iter().zip(room).position(|(cell, bytes)| cell.to_le_bytes() != *bytes);
            if at.is_some() || more.iter().any(|&cell| cell != 0) {
                let at = at.unwrap_or(size);
                return Err(format!("slice {number}, cell {at}: the C functions on bytes and on cells differ"));
            }
        }
        Ok(())
    }

    /// What a check or a recheck has answered and left in the slices.
    fn same_lent(&self, answer: &CheckAnswer, expected: &Said) -> Result<(), String> {
        let cells = Cells::of_check(expected);
        same_answer(answer, &check_answer(expected, &cells))?;
        same_bytes("records", &self.check_out, &cells.bytes(7))?;
        same_bytes("message", &self.message, expected.message())
    }
}

fn same(said: &Said, expected: &Said) -> Result<(), String> {
    if said == expected { Ok(()) } else { Err(format!("this crate says {said}\n  the model {expected}")) }
}

fn same_answer<T: PartialEq + Debug>(found: &T, expected: &T) -> Result<(), String> {
    if found == expected { Ok(()) } else { Err(format!("the C function answers {found:?}\n  the model {expected:?}")) }
}

/// The bytes that are expected, and zeros up to the slice's end.
fn same_bytes(what: &str, found: &[u8], expected: &[u8]) -> Result<(), String> {
    let (front, rest) = found.split_at(expected.len());
    if front == expected && rest.iter().all(|&byte| byte == 0) {
        return Ok(());
    }
    let expected = expected.iter().chain(std::iter::repeat(&0));
    let at = found.iter().zip(expected).position(|(found, expected)| found != expected);
    Err(format!("a byte of the {what} is not what the model says, the first at {at:?}"))
}

fn read_answer(said: &Said, cells: &Cells) -> ReadAnswer {
    let Verdict { number, line, place } = said.verdict();
    let counts = cells.counts();
    ReadAnswer { number, line, place, tokens: counts.tokens, names: counts.names }
}

fn check_answer(said: &Said, cells: &Cells) -> CheckAnswer {
    let Verdict { number, line, place } = said.verdict();
    let counts = cells.counts();
    CheckAnswer {
        number,
        line,
        place,
        tokens: counts.tokens,
        names: counts.names,
        functions: counts.functions,
        items: counts.items,
        arguments: counts.arguments,
        blocks: counts.blocks,
        predecessors: counts.predecessors,
    }
}

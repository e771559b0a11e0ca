//! Demand 3 by running: what the C functions write for the old text, for the new function alone and for the whole edited
//! text, held to each other in every cell of every function's reading.
use std::ops::Range;

use pitchsleet::raw::{self, CheckAnswer};

use super::against_fresh::{Premise, fails, is_same_verdict};
use super::against_model::Lent;
use super::edits::Edit;
use super::readings::{ReadingOf, moved_reading, reading_of};
use super::records::Cells;
use super::said::Verdict;

/// A text with what a C function answered and wrote for it.
pub struct Written<'t> {
    pub text: &'t [u8],
    pub answer: CheckAnswer,
    pub cells: Cells,
    /// The header table's bytes.
    table: Vec<u8>,
}

impl<'t> Written<'t> {
    pub fn by_check(lent: &mut Lent, text: &'t [u8]) -> Result<Self, String> {
        Ok(Self::new(text, lent.check(text)?))
    }

    /// What recheck writes for a new text in the place of a function of this one.
    fn by_recheck<'n>(&self, lent: &mut Lent, number: usize, new: &'n [u8]) -> Result<Written<'n>, String> {
        Ok(Written::new(new, lent.recheck(self.text, &self.table, number as u32, new)?))
    }

    fn new(text: &'t [u8], (answer, out): (CheckAnswer, &[u8])) -> Self {
        let table = out[raw::FUNCTIONS_OFFSET..][..raw::TABLE_BYTES].to_vec();
        Self { text, answer, cells: Cells::of_out(&answer, out), table }
    }

    pub fn reading(&self, function: usize) -> ReadingOf<'t> {
        reading_of(self.text, &self.cells, function)
    }

    pub fn moved_reading(&self, function: usize) -> ReadingOf<'t> {
        moved_reading(self.text, &self.cells, function)
    }

    fn verdict(&self) -> Verdict {
        let CheckAnswer { number, line, place, .. } = self.answer;
        Verdict { number, line, place }
    }

    fn functions(&self) -> usize {
        self.answer.functions as usize
    }

    /// A function's bytes: from its name's place to its closing token, a brace.
    fn bytes_of(&self, function: usize) -> Range<usize> {
        let (rows, _) = self.cells.functions[1..].as_chunks::<45>();
        let (tokens, _) = self.cells.tokens.as_chunks::<4>();
        let [_, _, closing, place, ..] = rows[function];
        let [_, _, _, last] = tokens[closing as usize];
        place as usize..last as usize + 1
    }
}

/// An edit of which demand 3 holds, wherever it speaks.
pub struct Held {
    /// What recheck answered.
    pub number: u32,
    /// The premise that fails, where demand 3 says nothing of the answer.
    pub fails: Option<Premise>,
    pub edited: Vec<u8>,
    /// How many functions were found to read as before, beside the new one.
    pub others: usize,
}

/// Checks the old text, rechecks the new function and checks the edited text, by the C functions alone. And a recheck of the
/// replaced function must give what check gave for it, whatever the new one is.
pub fn hold_to_demand_3(lent: &mut Lent, edit: &Edit) -> Result<Held, String> {
    let Edit { old, number, new, .. } = edit;
    let before = Written::by_check(lent, old)?;
    if *number >= before.functions() {
        return Err(format!("the old text is {}, with {} functions", before.verdict(), before.functions()));
    }
    replaced_as_before(lent, &before, *number)?;
    let Range { start, end } = before.bytes_of(*number);
    let edited = [&old[..start], new, &old[end..]].concat();
    let alone = before.by_recheck(lent, *number, new)?;
    let fresh = Written::by_check(lent, &edited)?;
    let fails = fails(alone.verdict(), fresh.verdict())?;
    if fails.is_none() {
        same_answers(&before, &alone, &fresh, start)?;
    }
    let others = match (fails, alone.answer.number) {
        (None, 0) => same_readings(&before, &alone, &fresh, *number)?,
        _ => 0,
    };
    Ok(Held { number: alone.answer.number, fails, others, edited })
}

/// A function in its own place: accepted, and read as check has read it.
fn replaced_as_before(lent: &mut Lent, before: &Written<'_>, number: usize) -> Result<(), String> {
    let again = before.by_recheck(lent, number, &before.text[before.bytes_of(number)])?;
    if again.functions() != 1 {
        return Err(format!("recheck says of the replaced function itself: {}", again.verdict()));
    }
    same_reading("the replaced function, rechecked and before", &again.reading(0), &before.reading(number))
}

/// The same verdict, and as many functions as there must be.
fn same_answers(before: &Written<'_>, alone: &Written<'_>, fresh: &Written<'_>, start: usize) -> Result<(), String> {
    let (functions, theirs) = (alone.functions(), fresh.functions());
    let expected = if alone.answer.number == 0 { (1, before.functions()) } else { (0, 0) };
    if is_same_verdict(alone.verdict(), fresh.verdict(), start) && (functions, theirs) == expected {
        return Ok(());
    }
    let (said, fresh) = (alone.verdict(), fresh.verdict());
    Err(format!(
        "recheck says {said}, functions: {functions}\n  a check of the edited text {fresh}, functions: {theirs}"
    ))
}

/// "On acceptance its reading is the fresh one, and all others read as before, but for name numbers and moved lines and
/// places." How many others there are.
fn same_readings(
    before: &Written<'_>,
    alone: &Written<'_>,
    fresh: &Written<'_>,
    number: usize,
) -> Result<usize, String> {
    same_reading("the new function, alone and afresh", &alone.reading(0), &fresh.reading(number))?;
    let expected = before.bytes_of(number).start..before.bytes_of(number).start + alone.text.len();
    if fresh.bytes_of(number) != expected {
        return Err(format!("the new function stands at {:?}, not at {expected:?}", fresh.bytes_of(number)));
    }
    let others = (0..before.functions()).filter(|other| *other != number);
    for other in others.clone() {
        let what = format!("function {other}, afresh and before");
        same_reading(&what, &fresh.moved_reading(other), &before.moved_reading(other))?;
    }
    Ok(others.count())
}

fn same_reading(what: &str, one: &ReadingOf<'_>, other: &ReadingOf<'_>) -> Result<(), String> {
    if one == other {
        return Ok(());
    }
    Err(format!("{what}, differs in {:?}: {one:?}\n  and {other:?}", one.differing(other)))
}

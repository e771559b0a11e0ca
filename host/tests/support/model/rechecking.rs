//! "Recheck": one new function against the headers of an accepted text. The ranges of a header table are those that
//! docs/INTERFACE.md gives.
use std::ops::RangeInclusive;

use super::parsing::{self, Kept, NOT_ONE_FUNCTION};
use super::reading::read_from;
use super::typing::{self, Head, Heads};
use super::{BYTES, Checked, FORMALS, FUNCTIONS, NAME, ROW, TABLE, of_tokens, refused};
use crate::support::said::{Said, SaidName, SaidToken, Ty};

/// The answer to a new text in the place of a function, by its number, of an old text with its header table. "Order: 30; 42 ..;
/// lexing of the new text alone, ..; 40 if its first byte doesn't begin a global or its last byte isn't a `}` token; then
/// parsing, ..; then typing against the old headers."
pub fn recheck(old: &[u8], table: &[u32], number: u32, new: &[u8]) -> Checked {
    let Some((rows, number)) = in_range(old, table, number) else {
        return Checked { said: refused(42, 0, 0, "", "bad header table."), order_is_open: false };
    };
    let replaced = &rows[number];
    // "Lines start at the replaced function's, also for 1."
    let said = read_from(replaced.line, new);
    if let Said::Accepted { tokens, .. } = &said
        && !from_name_to_brace(tokens, new.len())
    {
        return Checked { said: refused(40, replaced.line, 0, "", NOT_ONE_FUNCTION), order_is_open: false };
    }
    of_tokens(said, |tokens, names, order_is_open| {
        let kept = Kept { spelling: replaced.spelling, head: &replaced.head };
        let function = parsing::one_function(tokens, names, &kept)?;
        typing::all(function, &old_heads(&rows, names), tokens, names, order_is_open)
    })
}

/// Whether the first byte begins a global, and the last one is a `}` token. The end token is always there.
fn from_name_to_brace(tokens: &[SaidToken], length: usize) -> bool {
    let first = &tokens[0];
    let begins = first.kind == "global" && first.place == 0;
    let ends = tokens.iter().rev().nth(1).is_some_and(|last| last.kind == "}" && last.place + 1 == length);
    begins && ends
}

/// "A looked-up name is a part of the old text or of the new": a global of the new text is the first row that is spelled
/// like it.
fn old_heads(rows: &[Row<'_>], names: &[SaidName]) -> Heads {
    let head_of = |name: &SaidName| rows.iter().find(|row| row.spelling == name.spelling.as_bytes());
    let heads = names.iter().enumerate().filter_map(|(number, name)| Some((number, head_of(name)?.head.clone())));
    heads.collect()
}

// ---- header tables -----------------------------------------------------------------------------------------------------

/// What recheck takes from a row of a header table, with its text.
struct Row<'t> {
    spelling: &'t [u8],
    line: u32,
    head: Head,
}

const LINES: RangeInclusive<u32> = 1..=BYTES as u32 + 1;
const BLOCKS: RangeInclusive<u32> = 1..=256;
const NAME_LENGTHS: RangeInclusive<usize> = 2..=NAME;

/// All rows of a header table, and the replaced one's number; none where the answer is 42. "old text over 16,384 bytes,
/// number not below the count, a table shorter than its size, or a stored place, line, count or type outside the ranges .."
fn in_range<'t>(old: &'t [u8], table: &[u32], number: u32) -> Option<(Vec<Row<'t>>, usize)> {
    let cells = table.get(..TABLE)?;
    let (count, cells) = (cells[0] as usize, &cells[1..]);
    let number = number as usize;
    if old.len() > BYTES || count > FUNCTIONS || number >= count {
        return None;
    }
    let rows: Option<Vec<Row<'t>>> = cells.chunks(ROW).take(count).map(|cells| row_in_range(old, cells)).collect();
    Some((rows?, number))
}

fn row_in_range<'t>(old: &'t [u8], cells: &[u32]) -> Option<Row<'t>> {
    let (place, length, line, blocks) = (cells[3] as usize, cells[4] as usize, cells[5], cells[11]);
    let (type_number, formals) = (cells[7] as usize, cells[12] as usize);
    let is_in_range = place <= BYTES
        && NAME_LENGTHS.contains(&length)
        && LINES.contains(&line)
        && type_number < FUNCTIONS
        && BLOCKS.contains(&blocks)
        && formals <= FORMALS;
    if !is_in_range {
        return None;
    }
    let formals: Option<Vec<Ty>> = (0..formals).map(|formal| value_type(cells[14 + 2 * formal])).collect();
    let result = if cells[6] == 3 { Ty::Void } else { value_type(cells[6])? };
    let head = Head { type_number, formals: formals?, result };
    Some(Row { spelling: old.get(place..place + length)?, line, head })
}

fn value_type(cell: u32) -> Option<Ty> {
    match cell {
        1 => Some(Ty::Int),
        2 => Some(Ty::Bool),
        _ => None,
    }
}

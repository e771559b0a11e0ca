//! A function's reading, cell by cell, over the cells that the C functions write: `ReadingOf` of
//! crates/edited/specs/Reading.antt.
//!
//! "A function's reading is all that check writes for it from its name to its closing brace, compared by spelling, with
//! token numbers and starts of runs counted from its own first" (document 01, "Recheck"). No cell of its records is left
//! out: each has a column, which says how it is counted, and a record and its columns are arrays of one length.
use std::fmt::{self, Debug, Formatter};

use pitchsleet::Printable;

use super::records::Cells;
use Column::{Argument, Block, Item, Line, Place, Plain, Predecessor, Spelled, Token};

/// How a cell is counted.
#[derive(Clone, Copy)]
enum Column {
    /// As it is: a kind, a type, a count, an integer's bits, a block's number in its function.
    Plain,
    /// A name's number, by what it spells.
    Spelled,
    /// A number among all of a text, from the function's own first; and so the others.
    Token,
    Line,
    Place,
    Item,
    Argument,
    Block,
    Predecessor,
}

// ---- the columns of each record ----------------------------------------------------------------------------------------

/// A row: the name's token, the name, the closing token, the name's place, length and line, the result type, the function
/// type's number, the first item, how many, the first block, how many, how many formals; and then the formals.
const HEADER: [Column; 13] =
    [Token, Spelled, Token, Place, Plain, Line, Plain, Plain, Item, Plain, Block, Plain, Plain];

/// A formal, and so an argument: its name and its type.
const VARIABLE: [Column; 2] = [Spelled, Plain];

/// A token that is a name, and any other: its kind, what it carries, its line, its place.
const NAME: [Column; 4] = [Plain, Spelled, Line, Place];
const OTHER: [Column; 4] = [Plain, Plain, Line, Place];

/// An item by its kind.
const ITEMS: [[Column; 8]; 13] = [
    // no kind
    [Plain; 8],
    // a label
    item(Plain, Plain, Spelled, Plain),
    // a binary and a unary operation, `const`
    item(Spelled, Spelled, Spelled, Plain),
    item(Spelled, Spelled, Plain, Plain),
    item(Spelled, Plain, Plain, Plain),
    // a call, without and with a result
    item(Plain, Spelled, Argument, Plain),
    item(Spelled, Spelled, Argument, Plain),
    // `print`, `nop`, `jmp`, `br`
    item(Plain, Spelled, Plain, Plain),
    item(Plain, Plain, Plain, Plain),
    item(Plain, Plain, Spelled, Plain),
    item(Plain, Spelled, Spelled, Spelled),
    // `ret`, without and with a value
    item(Plain, Plain, Plain, Plain),
    item(Plain, Spelled, Plain, Plain),
];

/// Its kind, its token, the result and its type, the left operand, the callee or the condition and its type, and the last
/// two cells.
const fn item(result: Column, left: Column, third: Column, fourth: Column) -> [Column; 8] {
    [Plain, Token, result, Plain, left, Plain, third, fourth]
}

/// A block: its first operation, how many, how many successors and the pair of them, where its predecessors begin, how many,
/// the dead mark.
const BLOCK: [Column; 8] = [Item, Plain, Plain, Plain, Plain, Predecessor, Plain, Plain];

/// A predecessor: a block's number in its function.
const PREDECESSOR: [Column; 1] = [Plain];

/// Cells behind the last formal are as they are.
fn row_columns(row: &[u32; 45]) -> [Column; 45] {
    let formals = row[12] as usize;
    std::array::from_fn(|cell| match cell.checked_sub(HEADER.len()) {
        None => HEADER[cell],
        Some(behind) if behind / 2 < formals => VARIABLE[behind % 2],
        Some(_) => Plain,
    })
}

fn token_columns(token: &[u32; 4]) -> [Column; 4] {
    if (1..=3).contains(&token[0]) { NAME } else { OTHER }
}

fn item_columns(item: &[u32; 8]) -> [Column; 8] {
    *ITEMS.get(item[0] as usize).unwrap_or(&ITEMS[0])
}

// ---- the function's own records ----------------------------------------------------------------------------------------

struct Own<'c> {
    row: &'c [u32; 45],
    tokens: &'c [[u32; 4]],
    items: &'c [[u32; 8]],
    arguments: &'c [[u32; 2]],
    blocks: &'c [[u32; 8]],
    predecessors: &'c [[u32; 1]],
}

impl<'c> Own<'c> {
    /// The records of a function, by its row: its name's token to its closing one, its items, and so on.
    fn new(cells: &'c Cells, function: usize) -> Self {
        let (rows, _) = cells.functions[1..].as_chunks();
        let row: &[u32; 45] = &rows[function];
        let items = records(&cells.items, row[8], row[9]);
        let blocks = records(&cells.blocks, row[10], row[11]);
        let arguments = calls(items).map(|call| call[7]).sum();
        let predecessors = blocks.iter().map(|block| block[6]).sum();
        Self {
            row,
            tokens: records(&cells.tokens, row[0], (row[2] + 1).saturating_sub(row[0])),
            items,
            arguments: records(&cells.arguments, first_argument(items), arguments),
            blocks,
            predecessors: records(&cells.predecessors, first_predecessor(blocks), predecessors),
        }
    }
}

/// So many records from one on, those of them that are there.
fn records<const CELLS: usize>(cells: &[u32], first: u32, count: u32) -> &[[u32; CELLS]] {
    let (records, _) = cells.as_chunks();
    let records = records.get(first as usize..).unwrap_or_default();
    records.get(..count as usize).unwrap_or(records)
}

fn calls(items: &[[u32; 8]]) -> impl Iterator<Item = &[u32; 8]> {
    items.iter().filter(|item| [5, 6].contains(&item[0]))
}

/// Each call has a run of its own, and the first call's is the first.
fn first_argument(items: &[[u32; 8]]) -> u32 {
    calls(items).next().map_or(0, |call| call[6])
}

fn first_predecessor(blocks: &[[u32; 8]]) -> u32 {
    blocks.first().map_or(0, |block| block[5])
}

// ---- the reading -------------------------------------------------------------------------------------------------------

/// What a cell comes to. A number is signed: below the function's own first, where the definition says 0, it still tells.
#[derive(PartialEq, Eq)]
enum Seen<'t> {
    Number(i64),
    Word(&'t [u8]),
}

impl Debug for Seen<'_> {
    fn fmt(&self, f: &mut Formatter<'_>) -> fmt::Result {
        match self {
            Self::Number(number) => write!(f, "{number}"),
            Self::Word(word) => write!(f, "'{}'", Printable(word)),
        }
    }
}

/// What the names spell, and the function's own first of each.
struct Firsts<'t, 'c> {
    text: &'t [u8],
    names: &'c [u32],
    token: u32,
    line: u32,
    place: u32,
    item: u32,
    argument: u32,
    block: u32,
    predecessor: u32,
}

impl<'t> Firsts<'t, '_> {
    fn seen(&self, cell: u32, column: Column) -> Seen<'t> {
        let from = |first: u32| Seen::Number(i64::from(cell) - i64::from(first));
        match column {
            Plain => from(0),
            Spelled => Seen::Word(self.spelled(cell)),
            Token => from(self.token),
            Line => from(self.line),
            Place => from(self.place),
            Item => from(self.item),
            Argument => from(self.argument),
            Block => from(self.block),
            Predecessor => from(self.predecessor),
        }
    }

    /// The part of the text that a name's record names; nothing where there is none.
    fn spelled(&self, name: u32) -> &'t [u8] {
        let (names, _) = self.names.as_chunks();
        let [place, length] = names.get(name as usize).copied().unwrap_or_default().map(|cell| cell as usize);
        self.text.get(place..place + length).unwrap_or_default()
    }

    fn record<const CELLS: usize>(&self, record: &[u32; CELLS], columns: [Column; CELLS]) -> [Seen<'t>; CELLS] {
        std::array::from_fn(|cell| self.seen(record[cell], columns[cell]))
    }

    fn each<const CELLS: usize>(
        &self,
        records: &[[u32; CELLS]],
        columns: impl Fn(&[u32; CELLS]) -> [Column; CELLS],
    ) -> Vec<[Seen<'t>; CELLS]> {
        records.iter().map(|record| self.record(record, columns(record))).collect()
    }
}

#[derive(Debug, PartialEq, Eq)]
pub struct ReadingOf<'t> {
    row: [Seen<'t>; 45],
    tokens: Vec<[Seen<'t>; 4]>,
    items: Vec<[Seen<'t>; 8]>,
    arguments: Vec<[Seen<'t>; 2]>,
    blocks: Vec<[Seen<'t>; 8]>,
    predecessors: Vec<[Seen<'t>; 1]>,
}

impl ReadingOf<'_> {
    /// The kinds of records in which two readings differ.
    pub fn differing(&self, other: &Self) -> Vec<&'static str> {
        let kinds = [
            ("row", self.row == other.row),
            ("tokens", self.tokens == other.tokens),
            ("items", self.items == other.items),
            ("arguments", self.arguments == other.arguments),
            ("blocks", self.blocks == other.blocks),
            ("predecessors", self.predecessors == other.predecessors),
        ];
        kinds.into_iter().filter(|(_, is_same)| !is_same).map(|(kind, _)| kind).collect()
    }
}

/// A function of a text that was accepted with these cells: lines as they are.
pub fn reading_of<'t>(text: &'t [u8], cells: &Cells, function: usize) -> ReadingOf<'t> {
    reading_from(0, text, cells, &Own::new(cells, function))
}

/// The same with lines, too, counted from the function's own.
pub fn moved_reading<'t>(text: &'t [u8], cells: &Cells, function: usize) -> ReadingOf<'t> {
    let own = Own::new(cells, function);
    reading_from(own.row[5], text, cells, &own)
}

fn reading_from<'t>(line: u32, text: &'t [u8], cells: &Cells, own: &Own<'_>) -> ReadingOf<'t> {
    let firsts = Firsts {
        text,
        names: &cells.names,
        token: own.row[0],
        line,
        place: own.row[3],
        item: own.row[8],
        argument: first_argument(own.items),
        block: own.row[10],
        predecessor: first_predecessor(own.blocks),
    };
    ReadingOf {
        row: firsts.record(own.row, row_columns(own.row)),
        tokens: firsts.each(own.tokens, token_columns),
        items: firsts.each(own.items, item_columns),
        arguments: firsts.each(own.arguments, |_| VARIABLE),
        blocks: firsts.each(own.blocks, |_| BLOCK),
        predecessors: firsts.each(own.predecessors, |_| PREDECESSOR),
    }
}

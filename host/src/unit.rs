//! What a checked text holds: functions, blocks and edges.
use core::fmt::{self, Debug, Formatter};
use core::ops::Range;

use crate::headers::Headers;
use crate::operation::Operation;
use crate::owned::OwnedUnit;
use crate::raw::{
    self, ARGUMENT_CELLS, BLOCK_CELLS, CheckAnswer, FUNCTION_CELLS, ITEM_CELLS, PREDECESSOR_CELLS, TABLE_CELLS,
};
use crate::reader::{Buffers, Tokens};
use crate::records::{function_records, index, record};
use crate::token::{Identifier, Name, Token};
use crate::types::{Type, Variable};

/// The kind of an item that is a label.
const LABEL: u32 = 1;

/// An accepted text: its functions in order, with their blocks, edges and typed operations, and its tokens and names.
///
/// ```
/// use pitchsleet::{OperationValue, Reader};
///
/// let mut reader = Reader::new();
/// let unit = reader.check(b"
///     @least(a: int, b: int): int {
///       less: bool = lt a b;
///       br less .a .b;
///     .a:
///       ret a;
///     .b:
///       ret b;
///     }")?;
/// for function in unit.functions() {
///     println!("{}: {}", function.name().spelling, function.result());
///     for block in function.blocks() {
///         println!("  block {} goes to {:?}", block.number(), block.successors());
///         for operation in block.operations() {
///             if let OperationValue::Binary { operator, left, .. } = operation.value {
///                 println!("    {operator} of {}s", left.ty);
///             }
///         }
///     }
/// }
/// let least = unit.function(0).expect("there is one");
/// assert_eq!(least.block(0).expect("a function has a block").successors(), [1, 2]);
/// # Ok::<(), pitchsleet::Refusal>(())
/// ```
#[derive(Clone, Copy, PartialEq, Eq)]
pub struct Unit<'r, 't> {
    pub(crate) tokens: Tokens<'r, 't>,
    pub(crate) table: &'r [u32; TABLE_CELLS],
    pub(crate) functions: &'r [u32],
    pub(crate) items: &'r [u32],
    pub(crate) arguments: &'r [u32],
    pub(crate) blocks: &'r [u32],
    pub(crate) predecessors: &'r [u32],
}

impl<'r, 't> Unit<'r, 't> {
    /// The records of an accepted text, as many as the answer counts.
    pub(crate) fn new(tokens: Tokens<'r, 't>, buffers: &'r Buffers, answer: &CheckAnswer) -> Self {
        Self {
            tokens,
            table: &buffers.functions,
            functions: function_records(&buffers.functions, answer.functions as usize),
            items: &buffers.items[..answer.items as usize * ITEM_CELLS],
            arguments: &buffers.arguments[..answer.arguments as usize * ARGUMENT_CELLS],
            blocks: &buffers.blocks[..answer.blocks as usize * BLOCK_CELLS],
            predecessors: &buffers.predecessors[..answer.predecessors as usize * PREDECESSOR_CELLS],
        }
    }

    /// The tokens and names of the text.
    #[must_use]
    pub fn tokens(&self) -> Tokens<'r, 't> {
        self.tokens
    }

    /// The name with a number; none for a number that this text gives to no name.
    #[must_use]
    pub fn name(&self, identifier: Identifier) -> Option<Name<'t>> {
        self.tokens.name(identifier)
    }

    /// The spelling of a name of this text.
    ///
    /// # Panics
    ///
    /// Where this text gives the number to no name: one that this unit's own records hold never is.
    #[must_use]
    pub fn spelling(&self, identifier: Identifier) -> &'t str {
        self.tokens.spelling(identifier)
    }

    /// How many functions there are: at most 64, and none in a text without any.
    #[must_use]
    pub fn function_count(&self) -> usize {
        self.functions.len() / FUNCTION_CELLS
    }

    /// The function at an index.
    #[must_use]
    pub fn function(&self, index: usize) -> Option<Function<'r, 't>> {
        let record = record::<FUNCTION_CELLS>(self.functions, index)?;
        Some(Function { unit: *self, record })
    }

    /// The functions, in the order of the text. Two may have the same name, if they have the same type.
    #[must_use]
    pub fn functions(
        &self,
    ) -> impl ExactSizeIterator<Item = Function<'r, 't>> + DoubleEndedIterator + Clone + use<'r, 't> {
        let unit = *self;
        (0..self.function_count()).map(move |index| unit.function(index).expect("the count is the table's"))
    }

    /// The text's headers, as a value of its own: what [`Reader::recheck`](crate::Reader::recheck) holds a new function
    /// to. They take a copy of the text and 11,524 bytes.
    ///
    /// Of a new function that was rechecked these are its own header and no other. Those of the edited text come from a
    /// check of the edited text.
    #[must_use]
    pub fn headers(&self) -> Headers {
        Headers::new(self.tokens.text(), self.table)
    }

    /// The same as a value of its own, with a copy of the text and of all records.
    #[must_use]
    pub fn into_owned(self) -> OwnedUnit {
        OwnedUnit::from(self)
    }
}

impl Debug for Unit<'_, '_> {
    fn fmt(&self, f: &mut Formatter<'_>) -> fmt::Result {
        f.debug_list().entries(self.functions()).finish()
    }
}

/// A function of an accepted text. Two are equal where they are the same function of equal texts.
#[derive(Clone, Copy, PartialEq, Eq)]
pub struct Function<'r, 't> {
    unit: Unit<'r, 't>,
    record: &'r [u32; FUNCTION_CELLS],
}

impl<'r, 't> Function<'r, 't> {
    /// Its name. [`Name::place`] is where the name first appears in the text, perhaps in a call; [`Function::place`] is
    /// where it stands here.
    #[must_use]
    pub fn name(&self) -> Name<'t> {
        let identifier = Identifier(index(self.record, raw::FUNCTION_NAME));
        self.unit.name(identifier).expect("a function's name is in the table")
    }

    /// The index of its name's token, its first.
    #[must_use]
    pub fn token(&self) -> usize {
        index(self.record, raw::FUNCTION_TOKEN)
    }

    /// The index of its closing brace's token, its last.
    #[must_use]
    pub fn end_token(&self) -> usize {
        index(self.record, raw::FUNCTION_END)
    }

    /// The place of its name, its first byte.
    #[must_use]
    pub fn place(&self) -> usize {
        index(self.record, raw::FUNCTION_PLACE)
    }

    /// The place of its closing brace, its last byte.
    #[must_use]
    pub fn end_place(&self) -> usize {
        self.token_at(self.end_token()).place
    }

    /// Its bytes in the text, from its name to its closing brace: what a new text replaces that is rechecked.
    ///
    /// ```
    /// use pitchsleet::Reader;
    ///
    /// let mut reader = Reader::new();
    /// let text = "# two\n@f { nop; } @g { ret; }";
    /// let unit = reader.check(text.as_bytes())?;
    /// let spans: Vec<_> = unit.functions().map(|function| &text[function.span()]).collect();
    /// assert_eq!(spans, ["@f { nop; }", "@g { ret; }"]);
    /// # Ok::<(), pitchsleet::Refusal>(())
    /// ```
    #[must_use]
    pub fn span(&self) -> Range<usize> {
        self.place()..self.end_place() + 1
    }

    /// The line of its name; newlines in comments are not counted.
    #[must_use]
    pub fn line(&self) -> u32 {
        self.record[raw::FUNCTION_LINE]
    }

    /// The type of its result: [`Type::Int`], [`Type::Bool`], or [`Type::Void`] for none.
    #[must_use]
    pub fn result(&self) -> Type {
        Type::from_cell(self.record[raw::FUNCTION_RESULT])
    }

    /// Its own type, a [`Type::Fn`]: the types of its formals and of its result.
    #[must_use]
    pub fn ty(&self) -> Type {
        Type::Fn(index(self.record, raw::FUNCTION_TYPE))
    }

    /// Its formals, in order: at most 16.
    #[must_use]
    pub fn formals(&self) -> impl ExactSizeIterator<Item = Variable> + DoubleEndedIterator + Clone + use<'r, 't> {
        let (formals, _) = self.record[raw::FUNCTION_FORMALS..].as_chunks::<2>();
        let formals = &formals[..index(self.record, raw::FUNCTION_FORMAL_COUNT)];
        formals.iter().map(|formal| Variable::from_cells(formal, 0))
    }

    /// How many blocks it has: 1 to 256.
    #[must_use]
    pub fn block_count(&self) -> usize {
        index(self.record, raw::FUNCTION_BLOCK_COUNT)
    }

    /// The block with a number; block 0 is the first that runs.
    #[must_use]
    pub fn block(&self, number: usize) -> Option<Block<'r, 't>> {
        if self.block_count() <= number {
            return None;
        }
        let first = index(self.record, raw::FUNCTION_BLOCKS);
        let record = record::<BLOCK_CELLS>(self.unit.blocks, first + number)?;
        Some(Block { function: *self, number, record })
    }

    /// The blocks, by their numbers.
    #[must_use]
    pub fn blocks(&self) -> impl ExactSizeIterator<Item = Block<'r, 't>> + DoubleEndedIterator + Clone + use<'r, 't> {
        let function = *self;
        (0..self.block_count()).map(move |number| function.block(number).expect("the count is the table's"))
    }

    /// The labels, in the order of the text.
    pub fn labels(&self) -> impl Iterator<Item = Label> + Clone + use<'r, 't> {
        self.blocks().flat_map(|block| block.labels())
    }

    fn token_at(&self, index: usize) -> Token<'t> {
        self.unit.tokens.get(index).expect("a function's tokens are the text's")
    }

    /// The function's first item, as an index among all.
    fn first_item(&self) -> usize {
        index(self.record, raw::FUNCTION_ITEMS)
    }
}

impl Debug for Function<'_, '_> {
    fn fmt(&self, f: &mut Formatter<'_>) -> fmt::Result {
        f.debug_struct("Function")
            .field("name", &self.name())
            .field("formals", &self.formals().collect::<Vec<_>>())
            .field("result", &self.result())
            .field("blocks", &self.blocks().collect::<Vec<_>>())
            .finish()
    }
}

/// A label, where it names a block.
#[derive(Clone, Copy, Debug, PartialEq, Eq)]
pub struct Label {
    /// The label's number among the names.
    pub name: Identifier,
    /// The index of its token.
    pub token: usize,
    /// The number of the block that it names.
    pub block: usize,
}

/// A block of a function: operations that run one after the other, and the edges from it and to it. Two are equal where
/// they are the same block of equal texts.
#[derive(Clone, Copy, PartialEq, Eq)]
pub struct Block<'r, 't> {
    function: Function<'r, 't>,
    number: usize,
    record: &'r [u32; BLOCK_CELLS],
}

impl<'r, 't> Block<'r, 't> {
    /// Its number, from 0 in each function.
    #[must_use]
    pub fn number(&self) -> usize {
        self.number
    }

    /// The operations, in order. The last one is a `jmp`, a `br` or a `ret`.
    #[must_use]
    pub fn operations(
        &self,
    ) -> impl ExactSizeIterator<Item = Operation<'r>> + DoubleEndedIterator + Clone + use<'r, 't> {
        let unit = self.function.unit;
        let (first, count) = (self.first_operation(), index(self.record, raw::BLOCK_OPERATION_COUNT));
        (first..first + count).map(move |at| {
            let record = record::<ITEM_CELLS>(unit.items, at).expect("a block's operations are in the table");
            Operation::from_record(record, &unit.tokens, unit.arguments)
        })
    }

    /// The blocks that may come next, by their numbers: two for `br`, equal or not, one for `jmp`, none for `ret`.
    #[must_use]
    pub fn successors(&self) -> Edges<'r> {
        let count = index(self.record, raw::BLOCK_SUCCESSOR_COUNT);
        Edges { cells: &self.record[raw::BLOCK_SUCCESSORS..][..count] }
    }

    /// The blocks that this one may come after, by their numbers: one entry for each edge, in the edges' order.
    #[must_use]
    pub fn predecessors(&self) -> Edges<'r> {
        let first = index(self.record, raw::BLOCK_PREDECESSORS);
        let count = index(self.record, raw::BLOCK_PREDECESSOR_COUNT);
        Edges { cells: &self.function.unit.predecessors[first..][..count] }
    }

    /// Whether it isn't block 0 and no edge enters it. A block that only dead blocks lead to, or only itself, is not
    /// marked.
    #[must_use]
    pub fn is_dead(&self) -> bool {
        self.record[raw::BLOCK_DEAD] != 0
    }

    /// The labels that name it, in the order of the text.
    pub fn labels(&self) -> impl Iterator<Item = Label> + Clone + use<'r, 't> {
        // They stand right before its first operation: back from there as long as there are labels, and then forward.
        let (items, number) = (self.function.unit.items, self.number);
        let item = move |at: usize| record::<ITEM_CELLS>(items, at).expect("the function's items are in the table");
        let is_label = move |at: &usize| item(*at)[raw::ITEM_KIND] == LABEL;
        let end = self.first_operation();
        let count = (self.function.first_item()..end).rev().take_while(is_label).count();
        (end - count..end).map(move |at| Label {
            name: Identifier(index(item(at), raw::ITEM_RIGHT)),
            token: index(item(at), raw::ITEM_TOKEN),
            block: number,
        })
    }

    fn first_operation(&self) -> usize {
        index(self.record, raw::BLOCK_OPERATIONS)
    }
}

impl Debug for Block<'_, '_> {
    fn fmt(&self, f: &mut Formatter<'_>) -> fmt::Result {
        f.debug_struct("Block")
            .field("number", &self.number)
            .field("operations", &self.operations().collect::<Vec<_>>())
            .field("successors", &self.successors())
            .field("predecessors", &self.predecessors())
            .field("is_dead", &self.is_dead())
            .finish()
    }
}

/// Blocks at the other ends of a block's edges, by their numbers.
///
/// ```
/// use pitchsleet::Reader;
///
/// let mut reader = Reader::new();
/// let unit = reader.check(b"@f { .top: br again .top .end; .end: ret; }")?;
/// let function = unit.function(0).expect("there is one");
/// let top = function.block(0).expect("there are two");
/// assert_eq!(top.successors(), [0, 1]);
/// for number in top.successors() {
///     println!("block 0 goes to block {number}");
/// }
/// # Ok::<(), pitchsleet::Refusal>(())
/// ```
#[derive(Clone, Copy, PartialEq, Eq)]
pub struct Edges<'r> {
    cells: &'r [u32],
}

impl<'r> Edges<'r> {
    /// How many edges there are.
    #[must_use]
    pub fn len(&self) -> usize {
        self.cells.len()
    }

    /// Whether there is none.
    #[must_use]
    pub fn is_empty(&self) -> bool {
        self.cells.is_empty()
    }

    /// The block at the other end of the edge with an index.
    #[must_use]
    pub fn get(&self, index: usize) -> Option<usize> {
        self.cells.get(index).map(|&block| block as usize)
    }

    /// The blocks, in the edges' order.
    #[must_use]
    pub fn iter(&self) -> EdgesIter<'r> {
        EdgesIter { cells: self.cells.iter() }
    }

    /// The blocks as a list of their own.
    #[must_use]
    pub fn to_vec(&self) -> Vec<usize> {
        self.iter().collect()
    }
}

impl Debug for Edges<'_> {
    fn fmt(&self, f: &mut Formatter<'_>) -> fmt::Result {
        f.debug_list().entries(self.iter()).finish()
    }
}

/// Equal to the same blocks in the same order.
impl PartialEq<[usize]> for Edges<'_> {
    fn eq(&self, blocks: &[usize]) -> bool {
        self.iter().eq(blocks.iter().copied())
    }
}

/// Equal to the same blocks in the same order.
impl<const COUNT: usize> PartialEq<[usize; COUNT]> for Edges<'_> {
    fn eq(&self, blocks: &[usize; COUNT]) -> bool {
        *self == blocks[..]
    }
}

each! {
    /// The blocks at the other ends of a block's edges, in the edges' order; [`Edges::iter`] gives it.
    EdgesIter of Edges: cells of u32 as usize,
    |&block| block as usize
}

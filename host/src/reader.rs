//! The reader, and what it gives for an accepted text.
use core::fmt::{self, Debug, Formatter};

use crate::headers::Headers;
use crate::raw::{
    self, ARGUMENTS_CELLS, BLOCKS_CELLS, CheckAnswer, FUNCTIONS_CELLS, ITEMS_CELLS, MESSAGE_BYTES, NAME_CELLS,
    NAMES_CELLS, PREDECESSORS_CELLS, Slices, TOKEN_CELLS, TOKENS_CELLS,
};
use crate::records::{index, record};
use crate::refusal::Refusal;
use crate::token::{Identifier, Name, Token, TokenValue};
use crate::tokens_iter::TokensIter;
use crate::unit::Unit;

/// Reads, checks and rechecks texts, one after the other, in buffers of its own.
///
/// The buffers are taken once, by [`Reader::new`]: 252,228 bytes for the records and 512 for a message. They are lent to
/// the proved functions, which write their cells there and nowhere else. No call of [`Reader::read`], [`Reader::check`] or
/// [`Reader::recheck`] allocates anything but a refusal's message: the room that they need beside is on the stack, less than
/// 8 KiB for a reading, less than 16 KiB for a check, less than 28 KiB for a recheck.
///
/// ```
/// use pitchsleet::Reader;
///
/// let mut reader = Reader::new();
/// for text in ["@f { nop; }", "@f { nop $ }"] {
///     match reader.read(text.as_bytes()) {
///         Ok(tokens) => println!("{} tokens", tokens.len()),
///         Err(refusal) => println!("{refusal}"),
///     }
/// }
/// ```
#[derive(Clone)]
pub struct Reader {
    buffers: Buffers,
    message: Box<[u8; MESSAGE_BYTES]>,
}

/// A buffer for each kind of record: they are lent to the proved functions as they are.
#[derive(Clone)]
pub(crate) struct Buffers {
    tokens: Box<[u32; TOKENS_CELLS]>,
    names: Box<[u32; NAMES_CELLS]>,
    pub(crate) functions: Box<[u32; FUNCTIONS_CELLS]>,
    pub(crate) items: Box<[u32; ITEMS_CELLS]>,
    pub(crate) arguments: Box<[u32; ARGUMENTS_CELLS]>,
    pub(crate) blocks: Box<[u32; BLOCKS_CELLS]>,
    pub(crate) predecessors: Box<[u32; PREDECESSORS_CELLS]>,
}

impl Buffers {
    fn new() -> Self {
        Self {
            tokens: zeros(),
            names: zeros(),
            functions: zeros(),
            items: zeros(),
            arguments: zeros(),
            blocks: zeros(),
            predecessors: zeros(),
        }
    }

    fn slices(&mut self) -> Slices<'_> {
        Slices {
            tokens: &mut self.tokens[..],
            names: &mut self.names[..],
            functions: &mut self.functions[..],
            items: &mut self.items[..],
            arguments: &mut self.arguments[..],
            blocks: &mut self.blocks[..],
            predecessors: &mut self.predecessors[..],
        }
    }
}

/// Cells on the heap, which are never on the stack before.
fn zeros<const CELLS: usize>() -> Box<[u32; CELLS]> {
    vec![0; CELLS].try_into().expect("as many as were asked for")
}

impl Reader {
    /// A reader with its buffers.
    #[must_use]
    pub fn new() -> Self {
        Self { buffers: Buffers::new(), message: Box::new([0; MESSAGE_BYTES]) }
    }

    /// The tokens and names of a text, or why it is refused.
    ///
    /// The text is bytes: any are taken, and those that are no Bril text are refused. What comes back borrows the reader,
    /// so the next call waits until it is dropped; spellings borrow the text alone.
    ///
    /// ```
    /// use pitchsleet::{Identifier, Reader, TokenValue};
    ///
    /// let mut reader = Reader::new();
    /// let tokens = reader.read(b"x: int = const -5;")?;
    /// let values: Vec<_> = tokens.iter().map(|token| token.value).collect();
    /// assert_eq!(values[0], TokenValue::Local(Identifier(0)));
    /// assert_eq!(values[5], TokenValue::Integer(-5));
    ///
    /// let refusal = reader.read(b"x: int = const -;").unwrap_err();
    /// assert_eq!((refusal.number(), refusal.line(), refusal.place()), (4, 1, 15));
    /// assert_eq!(refusal.message(), b"[line 1] Error : Expected number after '-'.\n");
    /// # Ok::<(), pitchsleet::Refusal>(())
    /// ```
    ///
    /// # Errors
    ///
    /// A [`Refusal`] with its number, line, place and message, where the text is no sequence of tokens or is over a limit.
    pub fn read<'r, 't>(&'r mut self, text: &'t [u8]) -> Result<Tokens<'r, 't>, Refusal> {
        let Slices { tokens, names, .. } = self.buffers.slices();
        let answer = raw::read_cells(text, tokens, names, &mut self.message[..]);
        if answer.number != 0 {
            return Err(Refusal::new(answer.number, answer.line, answer.place, &self.message));
        }
        Ok(Tokens::new(text, &self.buffers, answer.tokens, answer.names))
    }

    /// The functions of a text, with their blocks, edges and typed operations, or why it is refused.
    ///
    /// The text is bytes: any are taken, and those that are no well-typed Bril text are refused. What comes back borrows
    /// the reader, so the next call waits until it is dropped; spellings borrow the text alone, and
    /// [`Unit::into_owned`](crate::Unit::into_owned) gives what borrows nothing.
    ///
    /// ```
    /// use pitchsleet::{Reader, Type};
    ///
    /// let mut reader = Reader::new();
    /// let unit = reader.check(b"@double(n: int): int { m: int = add n n; ret m; }")?;
    /// let function = unit.functions().next().expect("there is one");
    /// assert_eq!((function.name().spelling, function.result()), ("@double", Type::Int));
    /// let block = function.blocks().next().expect("a function has a block");
    /// assert_eq!(block.operations().len(), 2);
    ///
    /// let refusal = reader.check(b"@f { x: int = const true; }").unwrap_err();
    /// assert_eq!((refusal.number(), refusal.line(), refusal.place()), (17, 1, 20));
    /// assert_eq!(refusal.message(), b"[line 1] Error at 'true': 'int' type expected; 'bool' found\n");
    /// # Ok::<(), pitchsleet::Refusal>(())
    /// ```
    ///
    /// # Errors
    ///
    /// A [`Refusal`] with its number, line, place and message, where the text can't be read, doesn't follow the grammar,
    /// is not well typed, or is over a limit.
    pub fn check<'r, 't>(&'r mut self, text: &'t [u8]) -> Result<Unit<'r, 't>, Refusal> {
        let answer = raw::check_cells(text, self.buffers.slices(), &mut self.message[..]);
        self.unit(text, &answer)
    }

    /// A new function in the place of one of an accepted text: what a check of the new function says with the headers
    /// of all others, or why it is refused.
    ///
    /// The new text runs from the function's name to its closing brace, with nothing before or behind, and keeps the
    /// name and the types of its formals and of its result. Then the edited text is accepted by a check exactly when
    /// the new function is accepted here, as long as it stays inside the limits; otherwise both give the same number
    /// for the same token.
    ///
    /// What comes back has that one function, and its tokens and names are those of the new text: places count from the
    /// new text's first byte. Lines start at that of the function that is replaced, [`Headers::line`], and a
    /// [`Type::Fn`](crate::Type::Fn) has the number that it has in the old text.
    ///
    /// ```
    /// use pitchsleet::Reader;
    ///
    /// let mut reader = Reader::new();
    /// let text = "@limit: int { l: int = const -2; ret l; }\n@start(t: int): bool { b: bool = const true; ret b; }";
    /// let headers = reader.check(text.as_bytes())?.headers();
    /// let number = headers.position("@start").expect("there is one");
    ///
    /// let new = b"@start(t: int): bool { l: int = call @limit; b: bool = lt t l; ret b; }";
    /// let unit = reader.recheck(&headers, number, new)?;
    /// assert_eq!(unit.function_count(), 1);
    ///
    /// let new = b"@start(t: int): bool { l: int = call @limit; ret l; }";
    /// let refusal = reader.recheck(&headers, number, new).unwrap_err();
    /// assert_eq!((refusal.number(), refusal.line(), refusal.place()), (17, 2, 45));
    /// let refusal = reader.recheck(&headers, number, b"@start { nop; }").unwrap_err();
    /// assert_eq!(refusal.number(), 41, "the header must stay");
    /// # Ok::<(), pitchsleet::Refusal>(())
    /// ```
    ///
    /// # Errors
    ///
    /// A [`Refusal`] with its number, line, place and message: those of [`Reader::check`], 40 where the new text isn't
    /// one function, 41 where its header has changed, and 42 where no function has the number.
    pub fn recheck<'r, 't>(
        &'r mut self,
        headers: &Headers,
        number: usize,
        new: &'t [u8],
    ) -> Result<Unit<'r, 't>, Refusal> {
        // A number beyond 32 bits is no function's, and neither is the highest.
        let number = u32::try_from(number).unwrap_or(u32::MAX);
        let (old, table) = (headers.text().as_bytes(), headers.table_cells());
        let answer = raw::recheck_cells(old, table, number, new, self.buffers.slices(), &mut self.message[..]);
        self.unit(new, &answer)
    }

    /// What a check or a recheck has answered to a text, with the records and the message that it wrote.
    fn unit<'r, 't>(&'r self, text: &'t [u8], answer: &CheckAnswer) -> Result<Unit<'r, 't>, Refusal> {
        if answer.number != 0 {
            return Err(Refusal::new(answer.number, answer.line, answer.place, &self.message));
        }
        let tokens = Tokens::new(text, &self.buffers, answer.tokens, answer.names);
        Ok(Unit::new(tokens, &self.buffers, answer))
    }
}

impl Default for Reader {
    fn default() -> Self {
        Self::new()
    }
}

impl Debug for Reader {
    fn fmt(&self, f: &mut Formatter<'_>) -> fmt::Result {
        f.debug_struct("Reader").finish_non_exhaustive()
    }
}

/// The tokens of an accepted text, in order, and its names.
///
/// The last token is the end of the text, so there is always one.
///
/// ```
/// use pitchsleet::{Reader, TokenValue};
///
/// let mut reader = Reader::new();
/// let tokens = reader.read(b"@f {\n  nop;\n}")?;
/// for token in tokens {
///     println!("line {}, byte {}: {token}", token.line, token.place);
/// }
/// assert_eq!(tokens.len(), 6);
/// assert_eq!(tokens.get(2).map(|token| token.spelling), Some("nop"));
///
/// let spellings: Vec<_> = tokens.names().map(|name| name.spelling).collect();
/// assert_eq!(spellings, ["@f"]);
/// # Ok::<(), pitchsleet::Refusal>(())
/// ```
#[derive(Clone, Copy, PartialEq, Eq)]
pub struct Tokens<'r, 't> {
    pub(crate) text: &'t str,
    pub(crate) tokens: &'r [u32],
    pub(crate) names: &'r [u32],
}

impl<'r, 't> Tokens<'r, 't> {
    /// The records of an accepted text: so many tokens and names.
    fn new(text: &'t [u8], buffers: &'r Buffers, tokens: u32, names: u32) -> Self {
        Self {
            text: str::from_utf8(text).expect("an accepted text is ASCII"),
            tokens: &buffers.tokens[..tokens as usize * TOKEN_CELLS],
            names: &buffers.names[..names as usize * NAME_CELLS],
        }
    }

    /// How many tokens there are, the end of the text among them: at least 1, at most 4,096.
    #[must_use]
    #[allow(clippy::len_without_is_empty, reason = "it is never empty")]
    pub fn len(&self) -> usize {
        self.tokens.len() / TOKEN_CELLS
    }

    /// The token at an index.
    #[must_use]
    pub fn get(&self, at: usize) -> Option<Token<'t>> {
        let record = record::<TOKEN_CELLS>(self.tokens, at)?;
        let value = TokenValue::from_cells(record[raw::TOKEN_KIND], record[raw::TOKEN_VALUE]);
        let value = value.expect("a token's kind is 1 to 38");
        let place = index(record, raw::TOKEN_PLACE);
        Some(Token { value, line: record[raw::TOKEN_LINE], place, spelling: self.written(value, place) })
    }

    /// The index of the token that begins at a place; none where no token does.
    #[must_use]
    pub fn at_place(&self, place: usize) -> Option<usize> {
        let (records, _) = self.tokens.as_chunks::<TOKEN_CELLS>();
        records.binary_search_by_key(&place, |record| index(record, raw::TOKEN_PLACE)).ok()
    }

    /// The tokens, from the first to the end of the text.
    #[must_use]
    pub fn iter(&self) -> TokensIter<'r, 't> {
        TokensIter::new(*self)
    }

    /// The name with a number; none for a number that this text gives to no name.
    #[must_use]
    pub fn name(&self, identifier: Identifier) -> Option<Name<'t>> {
        let record = record::<NAME_CELLS>(self.names, identifier.0)?;
        let (place, length) = (index(record, raw::NAME_PLACE), index(record, raw::NAME_LENGTH));
        Some(Name { identifier, place, spelling: &self.text[place..][..length] })
    }

    /// The spelling of a name of this text.
    ///
    /// # Panics
    ///
    /// Where this text gives the number to no name: one that this text's own records hold never is.
    #[must_use]
    pub fn spelling(&self, identifier: Identifier) -> &'t str {
        self.name(identifier).expect("the number is one of this text's names").spelling
    }

    /// The names, by their numbers.
    #[must_use]
    pub fn names(&self) -> impl ExactSizeIterator<Item = Name<'t>> + DoubleEndedIterator + Clone + use<'r, 't> {
        let tokens = *self;
        let count = self.names.len() / NAME_CELLS;
        (0..count).map(move |number| tokens.name(Identifier(number)).expect("the count is the table's"))
    }

    /// The text that was read.
    #[must_use]
    pub fn text(&self) -> &'t str {
        self.text
    }

    fn written(&self, value: TokenValue, place: usize) -> &'t str {
        let rest = &self.text[place..];
        &rest[..self.length(value, rest)]
    }

    /// How long a token is that stands at the front of the rest of the text.
    fn length(&self, value: TokenValue, rest: &str) -> usize {
        match value {
            TokenValue::Local(name) | TokenValue::Global(name) | TokenValue::Label(name) => {
                let name = self.name(name).expect("a token's name is in the table");
                name.spelling.len()
            }
            TokenValue::Integer(_) => integer_length(rest),
            TokenValue::EndOfFile => 0,
            other => other.kind().len(),
        }
    }
}

/// A digit or a minus, and the digits after it.
fn integer_length(rest: &str) -> usize {
    let after_first = rest.bytes().skip(1);
    1 + after_first.take_while(u8::is_ascii_digit).count()
}

impl<'r, 't> IntoIterator for Tokens<'r, 't> {
    type Item = Token<'t>;
    type IntoIter = TokensIter<'r, 't>;

    fn into_iter(self) -> TokensIter<'r, 't> {
        self.iter()
    }
}

impl<'r, 't> IntoIterator for &Tokens<'r, 't> {
    type Item = Token<'t>;
    type IntoIter = TokensIter<'r, 't>;

    fn into_iter(self) -> TokensIter<'r, 't> {
        self.iter()
    }
}

impl Debug for Tokens<'_, '_> {
    fn fmt(&self, f: &mut Formatter<'_>) -> fmt::Result {
        f.debug_list().entries(self).finish()
    }
}

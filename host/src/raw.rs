//! The C functions, with the sizes and offsets that docs/INTERFACE.md fixes.
//!
//! [`crate::Reader`] is the comfortable way in. This module is for a host that keeps buffers of its own. They are lent to
//! the proved functions as they are, and those are safe to call with slices of any length, since they trust no caller.
//! There are two families, which give the same answers:
//!
//! - [`read_cells`], [`check_cells`] and [`recheck_cells`] take a slice of cells (`u32`) for each kind of record, and copy
//!   nothing: [`crate::Reader`] uses these;
//! - [`read`], [`check`] and [`recheck`] take one slice of bytes, `out`, with all records in it, a cell as four bytes, the
//!   lowest first. They make the cells on their stack and copy them out.
//!
//! Where something stands in a record, and how large one is, is in cells: a token's line is cell [`TOKEN_LINE`] of its
//! [`TOKEN_CELLS`]. Where a slice stands in `out` (`.._OFFSET`) is in bytes, [`CELL_BYTES`] to a cell.
//!
//! The crate's only `unsafe` code stands here, and a test holds every number below against the document.
#![allow(unsafe_code)]

/// The longest text that is read, in bytes. A longer one is refused with 31.
pub const TEXT_BYTES: usize = 16_384;

/// The size of a cell, a number of 32 bits, in bytes.
pub const CELL_BYTES: usize = 4;

/// The most tokens that a text may have, the end token among them.
pub const TOKENS: usize = 4_096;
/// Where the first token record stands in `out`.
pub const TOKENS_OFFSET: usize = 0;
/// The size of a token record, in cells.
pub const TOKEN_CELLS: usize = 4;
/// The size of `tokens` in cells: the room of all token records. A shorter slice is refused with 30.
pub const TOKENS_CELLS: usize = 16_384;
/// Where a token record has its kind.
pub const TOKEN_KIND: usize = 0;
/// Where a token record has its value: a name's number, or the 32 bits of an integer.
pub const TOKEN_VALUE: usize = 1;
/// Where a token record has its line.
pub const TOKEN_LINE: usize = 2;
/// Where a token record has its place in the text.
pub const TOKEN_PLACE: usize = 3;

/// The most names that a text may have.
pub const NAMES: usize = 1_024;
/// The longest name, in bytes, its sigil among them.
pub const LONGEST_NAME: usize = 64;
/// Where the first name record stands in `out`.
pub const NAMES_OFFSET: usize = 65_536;
/// The size of a name record, in cells.
pub const NAME_CELLS: usize = 2;
/// The size of `names` in cells: the room of all name records. A shorter slice is refused with 30.
pub const NAMES_CELLS: usize = 2_048;
/// Where a name record has the place of the name's first appearance.
pub const NAME_PLACE: usize = 0;
/// Where a name record has the name's length.
pub const NAME_LENGTH: usize = 1;

/// The size of [`read`]'s `out`. A shorter slice is refused with 30.
pub const OUT_BYTES: usize = 73_728;
/// The size of `message`. A shorter slice is refused with 30.
pub const MESSAGE_BYTES: usize = 512;

/// The most functions that a text may have.
pub const FUNCTIONS: usize = 64;
/// The most formals that a function may have.
pub const FORMALS: usize = 16;
/// Where the functions begin in [`check`]'s `out`: a cell with their count, and the function records behind it.
pub const FUNCTIONS_OFFSET: usize = 73_728;
/// The size of a header table, [`recheck`]'s `table`: the count of functions, and the room of all their records.
pub const TABLE_BYTES: usize = 11_524;
/// The size of a header table in cells, [`recheck_cells`]'s `table`: that of the `functions` which [`check_cells`] fills.
pub const TABLE_CELLS: usize = FUNCTIONS_CELLS;
/// Where the first function record stands in `functions`, behind the count, in cells.
pub const FUNCTIONS_FIRST: usize = 1;
/// The size of a function record, in cells.
pub const FUNCTION_CELLS: usize = 45;
/// The size of `functions` in cells: the count of functions, and behind it the room of all function records. A shorter
/// slice is refused with 30.
pub const FUNCTIONS_CELLS: usize = 2_881;
/// Where a function record has the index of its name's token.
pub const FUNCTION_TOKEN: usize = 0;
/// Where a function record has its name's number.
pub const FUNCTION_NAME: usize = 1;
/// Where a function record has the index of its closing brace's token.
pub const FUNCTION_END: usize = 2;
/// Where a function record has its name's place in the text.
pub const FUNCTION_PLACE: usize = 3;
/// Where a function record has its name's length.
pub const FUNCTION_LENGTH: usize = 4;
/// Where a function record has its name's line.
pub const FUNCTION_LINE: usize = 5;
/// Where a function record has its result type.
pub const FUNCTION_RESULT: usize = 6;
/// Where a function record has its function type's number.
pub const FUNCTION_TYPE: usize = 7;
/// Where a function record has its first item.
pub const FUNCTION_ITEMS: usize = 8;
/// Where a function record has its count of items.
pub const FUNCTION_ITEM_COUNT: usize = 9;
/// Where a function record has its first block.
pub const FUNCTION_BLOCKS: usize = 10;
/// Where a function record has its count of blocks.
pub const FUNCTION_BLOCK_COUNT: usize = 11;
/// Where a function record has its count of formals.
pub const FUNCTION_FORMAL_COUNT: usize = 12;
/// Where a function record has its first formal: a name and a type, and then the next one's.
pub const FUNCTION_FORMALS: usize = 13;

/// The most items that a text may have: operations, those that were added with them, and labels.
pub const ITEMS: usize = 3_072;
/// Where the first item record stands in `out`.
pub const ITEMS_OFFSET: usize = 85_252;
/// The size of an item record, in cells.
pub const ITEM_CELLS: usize = 8;
/// The size of `items` in cells: the room of all item records. A shorter slice is refused with 30.
pub const ITEMS_CELLS: usize = 24_576;
/// Where an item record has its kind.
pub const ITEM_KIND: usize = 0;
/// Where an item record has the index of its token.
pub const ITEM_TOKEN: usize = 1;
/// Where an item record has its result, a name and a type.
pub const ITEM_RESULT: usize = 2;
/// Where an item record has its first operand or its callee, a name and a type.
pub const ITEM_LEFT: usize = 4;
/// Where an item record has its second operand, its labels, or the run of its arguments.
pub const ITEM_RIGHT: usize = 6;

/// The room for arguments.
pub const ARGUMENTS: usize = 3_464;
/// Where the first argument record stands in `out`.
pub const ARGUMENTS_OFFSET: usize = 183_556;
/// The size of an argument record, in cells.
pub const ARGUMENT_CELLS: usize = 2;
/// The size of `arguments` in cells: the room of all argument records. A shorter slice is refused with 30.
pub const ARGUMENTS_CELLS: usize = 6_928;

/// The most blocks that a text may have.
pub const BLOCKS: usize = 1_024;
/// Where the first block record stands in `out`.
pub const BLOCKS_OFFSET: usize = 211_268;
/// The size of a block record, in cells.
pub const BLOCK_CELLS: usize = 8;
/// The size of `blocks` in cells: the room of all block records. A shorter slice is refused with 30.
pub const BLOCKS_CELLS: usize = 8_192;
/// Where a block record has its first operation, as an item's index.
pub const BLOCK_OPERATIONS: usize = 0;
/// Where a block record has its count of operations.
pub const BLOCK_OPERATION_COUNT: usize = 1;
/// Where a block record has its count of successors.
pub const BLOCK_SUCCESSOR_COUNT: usize = 2;
/// Where a block record has its two successors.
pub const BLOCK_SUCCESSORS: usize = 3;
/// Where a block record has its first predecessor, as an index among all.
pub const BLOCK_PREDECESSORS: usize = 5;
/// Where a block record has its count of predecessors.
pub const BLOCK_PREDECESSOR_COUNT: usize = 6;
/// Where a block record has its dead mark.
pub const BLOCK_DEAD: usize = 7;

/// The most predecessors that a text's blocks may have in all.
pub const PREDECESSORS: usize = 2_048;
/// Where the first predecessor stands in `out`.
pub const PREDECESSORS_OFFSET: usize = 244_036;
/// The size of a predecessor record, in cells.
pub const PREDECESSOR_CELLS: usize = 1;
/// The size of `predecessors` in cells: the room of all predecessors. A shorter slice is refused with 30.
pub const PREDECESSORS_CELLS: usize = 2_048;

/// The size of [`check`]'s `out`, and of [`recheck`]'s. A shorter slice is refused with 30.
pub const CHECK_OUT_BYTES: usize = 252_228;

/// What [`read`] and [`read_cells`] answer.
#[repr(C)]
#[derive(Clone, Copy, Debug, Default, PartialEq, Eq, Hash)]
pub struct ReadAnswer {
    /// 0 where the text was accepted, else the refusal's number.
    pub number: u32,
    /// The refusal's line.
    pub line: u32,
    /// The refusal's place: a byte's index in the text.
    pub place: u32,
    /// How many token records were written.
    pub tokens: u32,
    /// How many name records were written.
    pub names: u32,
}

/// What [`check`] and [`recheck`] answer, and [`check_cells`] and [`recheck_cells`].
#[repr(C)]
#[derive(Clone, Copy, Debug, Default, PartialEq, Eq, Hash)]
pub struct CheckAnswer {
    /// 0 where the text was accepted, else the refusal's number.
    pub number: u32,
    /// The refusal's line.
    pub line: u32,
    /// The refusal's place: a byte's index in the text.
    pub place: u32,
    /// How many token records were written.
    pub tokens: u32,
    /// How many name records were written.
    pub names: u32,
    /// How many function records were written.
    pub functions: u32,
    /// How many item records were written.
    pub items: u32,
    /// How many argument records were written.
    pub arguments: u32,
    /// How many block records were written.
    pub blocks: u32,
    /// How many predecessors were written.
    pub predecessors: u32,
}

unsafe extern "C" {
    fn pitchsleet_read(
        text: *const u8,
        text_len: usize,
        out: *mut u8,
        out_len: usize,
        message: *mut u8,
        message_len: usize,
    ) -> ReadAnswer;

    fn pitchsleet_check(
        text: *const u8,
        text_len: usize,
        out: *mut u8,
        out_len: usize,
        message: *mut u8,
        message_len: usize,
    ) -> CheckAnswer;

    fn pitchsleet_recheck(
        old: *const u8,
        old_len: usize,
        table: *const u8,
        table_len: usize,
        number: u32,
        new: *const u8,
        new_len: usize,
        out: *mut u8,
        out_len: usize,
        message: *mut u8,
        message_len: usize,
    ) -> CheckAnswer;

    fn pitchsleet_read_cells(
        text: *const u8,
        text_len: usize,
        tokens: *mut u32,
        tokens_len: usize,
        names: *mut u32,
        names_len: usize,
        message: *mut u8,
        message_len: usize,
    ) -> ReadAnswer;

    fn pitchsleet_check_cells(
        text: *const u8,
        text_len: usize,
        tokens: *mut u32,
        tokens_len: usize,
        names: *mut u32,
        names_len: usize,
        functions: *mut u32,
        functions_len: usize,
        items: *mut u32,
        items_len: usize,
        arguments: *mut u32,
        arguments_len: usize,
        blocks: *mut u32,
        blocks_len: usize,
        predecessors: *mut u32,
        predecessors_len: usize,
        message: *mut u8,
        message_len: usize,
    ) -> CheckAnswer;

    fn pitchsleet_recheck_cells(
        old: *const u8,
        old_len: usize,
        table: *const u32,
        table_len: usize,
        number: u32,
        new: *const u8,
        new_len: usize,
        tokens: *mut u32,
        tokens_len: usize,
        names: *mut u32,
        names_len: usize,
        functions: *mut u32,
        functions_len: usize,
        items: *mut u32,
        items_len: usize,
        arguments: *mut u32,
        arguments_len: usize,
        blocks: *mut u32,
        blocks_len: usize,
        predecessors: *mut u32,
        predecessors_len: usize,
        message: *mut u8,
        message_len: usize,
    ) -> CheckAnswer;
}

/// Reads a text into records and a message.
///
/// `out` needs [`OUT_BYTES`] and `message` [`MESSAGE_BYTES`]; where one is shorter the answer's number is 30 and nothing
/// is written. What is longer is filled with zeros. The call allocates nothing and takes less than 80 KiB of stack.
///
/// ```
/// use pitchsleet::raw;
///
/// let mut out = vec![0; raw::OUT_BYTES];
/// let mut message = [0; raw::MESSAGE_BYTES];
/// let answer = raw::read(b"@f { nop; }", &mut out, &mut message);
/// assert_eq!((answer.number, answer.tokens, answer.names), (0, 6, 1));
///
/// let answer = raw::read(b"@f { nop; }", &mut out[1..], &mut message);
/// assert_eq!(answer.number, 30);
/// ```
pub fn read(text: &[u8], out: &mut [u8], message: &mut [u8]) -> ReadAnswer {
    // SAFETY: the declaration is that of docs/INTERFACE.md. Each pointer stands with the length of its own slice, which is
    // alive for the whole call; `text` is only read, and the two others are borrowed by this call alone, so no two overlap.
    // The function is proved for slices of any length and any contents, touches nothing outside them, keeps no pointer
    // and always returns.
    unsafe {
        pitchsleet_read(text.as_ptr(), text.len(), out.as_mut_ptr(), out.len(), message.as_mut_ptr(), message.len())
    }
}

/// Checks a text: records of its tokens, names, functions, operations, blocks and edges, or a message.
///
/// `out` needs [`CHECK_OUT_BYTES`] and `message` [`MESSAGE_BYTES`]; where one is shorter the answer's number is 30 and
/// nothing is written. What is longer is filled with zeros. The call allocates nothing, and has all of its room on the
/// stack, less than 264 KiB.
///
/// ```
/// use pitchsleet::raw;
///
/// let mut out = vec![0; raw::CHECK_OUT_BYTES];
/// let mut message = [0; raw::MESSAGE_BYTES];
/// let answer = raw::check(b"@f { nop; }", &mut out, &mut message);
/// assert_eq!((answer.number, answer.functions, answer.blocks), (0, 1, 1));
/// assert_eq!(answer.items, 2, "nop, and the ret that is added");
///
/// let answer = raw::check(b"@f { }", &mut out, &mut message);
/// assert_eq!((answer.number, answer.functions), (22, 0));
/// ```
pub fn check(text: &[u8], out: &mut [u8], message: &mut [u8]) -> CheckAnswer {
    // SAFETY: as for `read` above, whose words hold for this function too.
    unsafe {
        pitchsleet_check(text.as_ptr(), text.len(), out.as_mut_ptr(), out.len(), message.as_mut_ptr(), message.len())
    }
}

/// Checks a new text in the place of a function of an old text, against the old text's headers: the same records as
/// [`check`]'s, of the new text alone, or a message.
///
/// `table` is what [`check`] wrote for the old text: the [`TABLE_BYTES`] of its `out` from [`FUNCTIONS_OFFSET`] on. A
/// shorter one is refused with 42, and so is one with a cell out of the ranges that docs/INTERFACE.md gives; of a longer
/// one no more is read. `out` and `message` are as for [`check`]. The call allocates nothing, and has all of its room on
/// the stack.
///
/// ```
/// use pitchsleet::raw;
///
/// let mut out = vec![0; raw::CHECK_OUT_BYTES];
/// let mut message = [0; raw::MESSAGE_BYTES];
/// let old = b"@f { nop; } @g { call @f; }";
/// assert_eq!(raw::check(old, &mut out, &mut message).number, 0);
/// let table = out[raw::FUNCTIONS_OFFSET..][..raw::TABLE_BYTES].to_vec();
///
/// let answer = raw::recheck(old, &table, 1, b"@g { call @f; ret; }", &mut out, &mut message);
/// assert_eq!((answer.number, answer.functions), (0, 1));
/// let answer = raw::recheck(old, &table, 1, b"@h { call @f; ret; }", &mut out, &mut message);
/// assert_eq!((answer.number, answer.functions), (41, 0));
/// let answer = raw::recheck(old, &table, 2, b"@g { call @f; ret; }", &mut out, &mut message);
/// assert_eq!(answer.number, 42);
/// ```
pub fn recheck(old: &[u8], table: &[u8], number: u32, new: &[u8], out: &mut [u8], message: &mut [u8]) -> CheckAnswer {
    // SAFETY: as for `read` above, whose words hold for this function too; `old`, `table` and `new` are only read.
    unsafe {
        pitchsleet_recheck(
            old.as_ptr(),
            old.len(),
            table.as_ptr(),
            table.len(),
            number,
            new.as_ptr(),
            new.len(),
            out.as_mut_ptr(),
            out.len(),
            message.as_mut_ptr(),
            message.len(),
        )
    }
}

/// The slices of cells that [`check_cells`] and [`recheck_cells`] write, one for each kind of record. Each needs as many
/// cells as are said beside it; what is longer is filled with zeros.
#[derive(Debug)]
pub struct Slices<'a> {
    /// Token records: [`TOKENS_CELLS`].
    pub tokens: &'a mut [u32],
    /// Name records: [`NAMES_CELLS`].
    pub names: &'a mut [u32],
    /// The count of functions, and behind it function records: [`FUNCTIONS_CELLS`].
    pub functions: &'a mut [u32],
    /// Item records: [`ITEMS_CELLS`].
    pub items: &'a mut [u32],
    /// Argument records: [`ARGUMENTS_CELLS`].
    pub arguments: &'a mut [u32],
    /// Block records: [`BLOCKS_CELLS`].
    pub blocks: &'a mut [u32],
    /// Predecessors: [`PREDECESSORS_CELLS`].
    pub predecessors: &'a mut [u32],
}

/// Reads a text into records, as cells, and a message: the same as [`read`], without a copy.
///
/// `tokens` needs [`TOKENS_CELLS`], `names` [`NAMES_CELLS`] and `message` [`MESSAGE_BYTES`]; where one is shorter the
/// answer's number is 30 and nothing is written. What is longer is filled with zeros. The call allocates nothing and takes
/// less than 8 KiB of stack.
///
/// ```
/// use pitchsleet::raw;
///
/// let (mut tokens, mut names) = (vec![0; raw::TOKENS_CELLS], vec![0; raw::NAMES_CELLS]);
/// let mut message = [0; raw::MESSAGE_BYTES];
/// let answer = raw::read_cells(b"@f {\nnop; }", &mut tokens, &mut names, &mut message);
/// assert_eq!((answer.number, answer.tokens, answer.names), (0, 6, 1));
/// let nop = &tokens[2 * raw::TOKEN_CELLS..][..raw::TOKEN_CELLS];
/// assert_eq!(nop[raw::TOKEN_LINE], 2);
///
/// let answer = raw::read_cells(b"@f { nop; }", &mut tokens[1..], &mut names, &mut message);
/// assert_eq!(answer.number, 30);
/// ```
pub fn read_cells(text: &[u8], tokens: &mut [u32], names: &mut [u32], message: &mut [u8]) -> ReadAnswer {
    // SAFETY: as for `read` above, whose words hold for this function too. The length of a slice of cells is in cells, as
    // the function takes it.
    unsafe {
        pitchsleet_read_cells(
            text.as_ptr(),
            text.len(),
            tokens.as_mut_ptr(),
            tokens.len(),
            names.as_mut_ptr(),
            names.len(),
            message.as_mut_ptr(),
            message.len(),
        )
    }
}

/// Checks a text: records of its tokens, names, functions, operations, blocks and edges, as cells, or a message. The same
/// as [`check`], without a copy.
///
/// `message` needs [`MESSAGE_BYTES`], and each of the slices its size; where one is shorter the answer's number is 30 and
/// nothing is written. What is longer is filled with zeros. The call allocates nothing and takes less than 16 KiB of stack.
///
/// ```
/// use pitchsleet::raw;
///
/// let mut message = [0; raw::MESSAGE_BYTES];
/// let mut blocks = vec![0; raw::BLOCKS_CELLS];
/// let slices = raw::Slices {
///     tokens: &mut vec![0; raw::TOKENS_CELLS],
///     names: &mut vec![0; raw::NAMES_CELLS],
///     functions: &mut vec![0; raw::FUNCTIONS_CELLS],
///     items: &mut vec![0; raw::ITEMS_CELLS],
///     arguments: &mut vec![0; raw::ARGUMENTS_CELLS],
///     blocks: &mut blocks,
///     predecessors: &mut vec![0; raw::PREDECESSORS_CELLS],
/// };
/// let answer = raw::check_cells(b"@f { nop; }", slices, &mut message);
/// assert_eq!((answer.number, answer.functions, answer.blocks), (0, 1, 1));
/// assert_eq!(blocks[raw::BLOCK_OPERATION_COUNT], 2, "nop, and the ret that is added");
/// ```
pub fn check_cells(text: &[u8], slices: Slices<'_>, message: &mut [u8]) -> CheckAnswer {
    let Slices { tokens, names, functions, items, arguments, blocks, predecessors } = slices;
    // SAFETY: as for `read_cells` above, whose words hold for this function too.
    unsafe {
        pitchsleet_check_cells(
            text.as_ptr(),
            text.len(),
            tokens.as_mut_ptr(),
            tokens.len(),
            names.as_mut_ptr(),
            names.len(),
            functions.as_mut_ptr(),
            functions.len(),
            items.as_mut_ptr(),
            items.len(),
            arguments.as_mut_ptr(),
            arguments.len(),
            blocks.as_mut_ptr(),
            blocks.len(),
            predecessors.as_mut_ptr(),
            predecessors.len(),
            message.as_mut_ptr(),
            message.len(),
        )
    }
}

/// Checks a new text in the place of a function of an old text, against the old text's headers: the same records as
/// [`check_cells`]'s, of the new text alone, or a message. The same as [`recheck`], without a copy.
///
/// `table` is what [`check_cells`] wrote for the old text to its `functions`: [`TABLE_CELLS`]. A shorter one is refused
/// with 42, and so is one with a cell out of the ranges that docs/INTERFACE.md gives; of a longer one no more is read. The
/// slices and `message` are as for [`check_cells`]. The call allocates nothing and takes less than 28 KiB of stack.
///
/// ```
/// use pitchsleet::{Reader, raw};
///
/// let old = "@f { nop; } @g { call @f; }";
/// let headers = Reader::new().check(old.as_bytes())?.headers();
/// let recheck = |number: u32, new: &str| {
///     let slices = raw::Slices {
///         tokens: &mut vec![0; raw::TOKENS_CELLS],
///         names: &mut vec![0; raw::NAMES_CELLS],
///         functions: &mut vec![0; raw::FUNCTIONS_CELLS],
///         items: &mut vec![0; raw::ITEMS_CELLS],
///         arguments: &mut vec![0; raw::ARGUMENTS_CELLS],
///         blocks: &mut vec![0; raw::BLOCKS_CELLS],
///         predecessors: &mut vec![0; raw::PREDECESSORS_CELLS],
///     };
///     let message = &mut [0; raw::MESSAGE_BYTES];
///     raw::recheck_cells(old.as_bytes(), headers.table_cells(), number, new.as_bytes(), slices, message).number
/// };
/// assert_eq!(recheck(1, "@g { call @f; ret; }"), 0);
/// assert_eq!(recheck(1, "@h { call @f; ret; }"), 41);
/// assert_eq!(recheck(2, "@g { call @f; ret; }"), 42);
/// # Ok::<(), pitchsleet::Refusal>(())
/// ```
pub fn recheck_cells(
    old: &[u8],
    table: &[u32],
    number: u32,
    new: &[u8],
    slices: Slices<'_>,
    message: &mut [u8],
) -> CheckAnswer {
    let Slices { tokens, names, functions, items, arguments, blocks, predecessors } = slices;
    // SAFETY: as for `read_cells` above, whose words hold for this function too; `old`, `table` and `new` are only read.
    unsafe {
        pitchsleet_recheck_cells(
            old.as_ptr(),
            old.len(),
            table.as_ptr(),
            table.len(),
            number,
            new.as_ptr(),
            new.len(),
            tokens.as_mut_ptr(),
            tokens.len(),
            names.as_mut_ptr(),
            names.len(),
            functions.as_mut_ptr(),
            functions.len(),
            items.as_mut_ptr(),
            items.len(),
            arguments.as_mut_ptr(),
            arguments.len(),
            blocks.as_mut_ptr(),
            blocks.len(),
            predecessors.as_mut_ptr(),
            predecessors.len(),
            message.as_mut_ptr(),
            message.len(),
        )
    }
}

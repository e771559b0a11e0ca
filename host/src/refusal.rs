//! What a text is refused with.
use core::error::Error;
use core::fmt::{self, Debug, Display, Formatter};

use crate::lines::{Lines, Position};
use crate::printable::Printable;
use crate::raw::MESSAGE_BYTES;

/// Why a text was refused: a number, a line, a place, and a message.
///
/// ```
/// use pitchsleet::{Reader, RefusalKind};
///
/// let text = b"# a rule\n@f {\n  ret x;\n}";
/// let refusal = Reader::new().check(text).unwrap_err();
/// assert_eq!((refusal.number(), refusal.kind()), (16, RefusalKind::Undefined));
/// assert_eq!(refusal.message(), b"[line 2] Error at 'x': Undefined identifier.\n");
/// let position = refusal.position(text).expect("it has a place");
/// assert_eq!((position.line, position.column), (3, 3), "in the file, where all newlines count");
/// ```
///
/// | number | why | line and place |
/// |---|---|---|
/// | 1 | a byte above 127 | line 1, place 0, wherever the byte stands |
/// | 2 | a `/*` comment that is not closed | the comment's first byte |
/// | 3 | a byte that begins nothing | that byte |
/// | 4 | `-` without digits, or a number below -2147483648 | the `-` |
/// | 43 | a number above 2147483647 | its first digit |
/// | 31 | more than 16,384 bytes | line 0, place 0 |
/// | 32 | more than 4,096 tokens, the end token among them | the token one too many |
/// | 33 | more than 1,024 names | the name one too many |
/// | 34 | a name of more than 64 bytes | the name |
///
/// These are [`Reader::read`](crate::Reader::read)'s, and come in this order: 31, then 1, then what stands first in the
/// text. For one name 34 comes before 33, and both before 32. [`Reader::check`](crate::Reader::check) has them too, and
/// then, of the functions in the order of the text:
///
/// | number | why | line and place |
/// |---|---|---|
/// | 5 | a certain token is missing | the token that stands there instead |
/// | 6, 7, 8 | a local, a global, a label is missing | the token that stands there instead |
/// | 9 | a type is missing | the token that stands there instead |
/// | 10 | a constant is missing | the word `const` |
/// | 11 | no operation's word | the token that stands there |
/// | 12 | an operation after the block's end | that operation's token |
/// | 13 | a label that names a block already | the label |
/// | 14 | a jump to a label that the function doesn't have | the word `jmp` or `br` |
/// | 15 | a function of the same name and another type | its name |
/// | 22 | a block without an operation | the function's name |
/// | 35 | more than 64 functions | the name of the one too many |
/// | 36, 37 | more than 16 formals, or arguments of a call | the one too many |
/// | 38 | more than 255 labels in a function | the label one too many |
///
/// and of types, once all functions are read:
///
/// | number | why | line and place |
/// |---|---|---|
/// | 15 | a name that has another type already | the operation's token; of a formal, the function's name |
/// | 16 | a name that no operation before has set, or a function that there isn't | the operation's token |
/// | 17 | one type where another must be | the operation's token |
/// | 18, 19 | a value of a void function, no value of another one | the word `call` or `ret` |
/// | 20 | more or fewer arguments than formals | the word `call` |
/// | 21 | a block of a function with a result that doesn't end in `jmp`, `br` or `ret` | its last operation's token |
///
/// [`Reader::recheck`](crate::Reader::recheck) has these too, but for 35, and of its own:
///
/// | number | why | line and place |
/// |---|---|---|
/// | 40 | the new text doesn't begin with a global, or doesn't end with a `}` | its first byte |
/// | 40 | a second function | its name |
/// | 41 | another name, other types of the formals, or another type of the result | the function's name |
/// | 42 | no function has the number, or the header table is not one of the old text | line 0, place 0 |
///
/// 42 comes first, 40 of the first or last byte once all is read, 41 before the body, and 40 of a second function
/// before all typing. Places are those of the new text, and its lines start at that of the function that is replaced,
/// also for 1.
///
/// A line is counted as the Rust original counts: from 1, and one more for each newline outside comments. So it may be
/// less than the line that an editor shows, where a comment above ran through a newline. The place has no such trap.
#[derive(Clone, PartialEq, Eq)]
pub struct Refusal {
    number: u32,
    line: u32,
    place: u32,
    // On the heap, so that a `Result` is small: what is accepted shouldn't carry the room of a message.
    message: Box<[u8]>,
}

impl Refusal {
    pub(crate) fn new(number: u32, line: u32, place: u32, message: &[u8; MESSAGE_BYTES]) -> Self {
        Self { number, line, place, message: message[..length_of(message)].into() }
    }

    /// The refusal's number: one of those above.
    #[must_use]
    pub fn number(&self) -> u32 {
        self.number
    }

    /// What the number means.
    #[must_use]
    pub fn kind(&self) -> RefusalKind {
        RefusalKind::of(self.number).expect("every refusal's number has a kind")
    }

    /// The line, from 1; newlines in comments are not counted. 0 where no line is meant, as where the text is too long
    /// to be read at all. Of a recheck, lines start at that of the function that is replaced.
    #[must_use]
    pub fn line(&self) -> u32 {
        self.line
    }

    /// The index of a byte in the text.
    #[must_use]
    pub fn place(&self) -> usize {
        self.place as usize
    }

    /// The line and column of its place in the text that was refused, as an editor counts them. None where it is of no
    /// place in the text: of 31 and 42.
    #[must_use]
    pub fn position(&self, text: &[u8]) -> Option<Position> {
        self.kind().has_place().then(|| Lines::new(text).position(self.place()))
    }

    /// The message, byte for byte that of the Rust original where it has one: `[line 1] Error : Unexpected token: '$'.`
    /// and a newline. It may hold a control character of the text, even a zero; [`Printable`] makes it fit to show. A
    /// token that is a name is called by its number there, as in `at 'local_3'`.
    #[must_use]
    pub fn message(&self) -> &[u8] {
        &self.message
    }
}

/// A message ends with its newline. Its first zero would be too early: a text with a zero byte is refused with that byte
/// in the message. And its first newline is its last, since a newline is blank and never an unexpected byte.
fn length_of(message: &[u8]) -> usize {
    let newline = message.iter().position(|&byte| byte == b'\n');
    newline.map_or(0, |at| at + 1)
}

/// One line, without the message's newline: `refused 3 at byte 0: [line 1] Error : Unexpected token: '$'.`
impl Display for Refusal {
    fn fmt(&self, f: &mut Formatter<'_>) -> fmt::Result {
        let (number, place) = (self.number, self.place);
        let message = self.message();
        let message = message.strip_suffix(b"\n").unwrap_or(message);
        write!(f, "refused {number} at byte {place}: {}", Printable(message))
    }
}

impl Debug for Refusal {
    fn fmt(&self, f: &mut Formatter<'_>) -> fmt::Result {
        f.debug_struct("Refusal")
            .field("number", &self.number)
            .field("line", &self.line)
            .field("place", &self.place)
            .field("message", &format_args!("\"{}\"", Printable(self.message())))
            .finish()
    }
}

impl Error for Refusal {}

macro_rules! kinds {
    ($($(#[$says:meta])* $variant:ident $number:literal,)*) => {
        /// What a refusal's number means. The names are those of include/pitchsleet.h.
        ///
        /// ```
        /// use pitchsleet::{Reader, RefusalKind};
        ///
        /// let refusal = Reader::new().check(b"@f { jmp .nowhere; }").unwrap_err();
        /// let advice = match refusal.kind() {
        ///     RefusalKind::MissingTarget => "a label is misspelt, or was renamed",
        ///     kind if kind.is_limit() => "the rule must be made smaller",
        ///     _ => "see the message",
        /// };
        /// assert_eq!(advice, "a label is misspelt, or was renamed");
        /// ```
        #[derive(Clone, Copy, Debug, PartialEq, Eq, Hash)]
        #[non_exhaustive]
        pub enum RefusalKind {
            $($(#[$says])* $variant,)*
        }

        impl RefusalKind {
            /// All of them, by rising numbers.
            pub const ALL: &[Self] = &[$(Self::$variant,)*];

            /// The kind with a number, as the functions of [`raw`](crate::raw) answer; none for 0 and for numbers that
            /// refuse nothing.
            #[must_use]
            pub fn of(number: u32) -> Option<Self> {
                match number {
                    $($number => Some(Self::$variant),)*
                    _ => None,
                }
            }

            /// Its number.
            #[must_use]
            pub fn number(self) -> u32 {
                match self {
                    $(Self::$variant => $number,)*
                }
            }
        }
    };
}

kinds! {
    /// A byte of the text is above 127.
    NotAscii 1,
    /// A `/*` comment is not closed.
    CommentNotClosed 2,
    /// A byte begins no token.
    UnexpectedByte 3,
    /// A `-` has no digits behind it, or the number is below -2147483648.
    NumberExpected 4,
    /// A certain token is missing; the message names it.
    TokenExpected 5,
    /// A local, a name without a sigil, is missing.
    NoLocal 6,
    /// A global, a name with an `@`, is missing.
    NoGlobal 7,
    /// A label, a name with a `.`, is missing.
    NoLabel 8,
    /// A type, `int` or `bool`, is missing.
    NoType 9,
    /// A number, `true` or `false` is missing behind `const`.
    NoConstant 10,
    /// Behind `=` stands no operation's word.
    UnexpectedToken 11,
    /// An operation stands behind its block's end, without a label between.
    NoLabelFirst 12,
    /// A label names a block of this function already.
    DuplicateLabel 13,
    /// A `jmp` or `br` goes to a label that the function doesn't have.
    MissingTarget 14,
    /// A name has another type already.
    UnexpectedType 15,
    /// A name is used that no operation which is checked before has set, or a function called that there isn't.
    Undefined 16,
    /// One type stands where another must be.
    OtherType 17,
    /// A value is taken from a void function, or returned by one.
    VoidValue 18,
    /// The value of a function that has one is not taken, or not returned.
    NoValue 19,
    /// A call has more or fewer arguments than the function has formals.
    OtherCount 20,
    /// A block of a function with a result doesn't end in `jmp`, `br` or `ret`.
    NoTerminator 21,
    /// A block has no operation.
    EmptyBlock 22,
    /// A lent slice is too short. A [`Reader`](crate::Reader) lends enough, so only [`raw`](crate::raw) has it.
    ShortBuffer 30,
    /// The text has more than 16,384 bytes.
    TooManyBytes 31,
    /// The text has more than 4,096 tokens, its end among them.
    TooManyTokens 32,
    /// The text has more than 1,024 names.
    TooManyNames 33,
    /// A name has more than 64 bytes.
    NameTooLong 34,
    /// The text has more than 64 functions.
    TooManyFunctions 35,
    /// A function has more than 16 formals.
    TooManyFormals 36,
    /// A call has more than 16 arguments.
    TooManyArguments 37,
    /// A function has more than 255 labels.
    TooManyLabels 38,
    /// A new text is not one function, from its `@` to its `}`.
    NotOneFunction 40,
    /// A new function has another name or other types than the one that it replaces.
    HeaderChanged 41,
    /// No function has the number, or the header table is not one of the old text.
    BadTable 42,
    /// A number is above 2147483647.
    NumberOutOfRange 43,
}

impl RefusalKind {
    /// Whether it is of a place in the text. Those that aren't are of the text as a whole, or not of it at all.
    #[must_use]
    pub fn has_place(self) -> bool {
        !matches!(self, Self::ShortBuffer | Self::TooManyBytes | Self::BadTable)
    }

    /// Whether one of the limits on a text's size is passed.
    #[must_use]
    pub fn is_limit(self) -> bool {
        (Self::TooManyBytes.number()..=Self::TooManyLabels.number()).contains(&self.number())
    }
}

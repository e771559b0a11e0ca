//! Tokens and names, as the records hold them.
use core::fmt::{self, Display, Formatter};

/// The number of a name: names count from 0 in order of their first appearance, one count for locals, globals and labels.
#[derive(Clone, Copy, Debug, PartialEq, Eq, PartialOrd, Ord, Hash)]
pub struct Identifier(pub usize);

macro_rules! values {
    ($($variant:ident $kind:literal $spelling:literal,)*) => {
        /// What a token is, in the words of the Rust original.
        #[derive(Clone, Copy, Debug, PartialEq, Eq, Hash)]
        pub enum TokenValue {
            /// A name that begins with a letter.
            Local(Identifier),
            /// A name that begins with `@`.
            Global(Identifier),
            /// A name that begins with `.`.
            Label(Identifier),
            /// A number, from -2147483648 to 2147483647.
            Integer(i32),
            $(
                #[doc = concat!("`", $spelling, "`")]
                $variant,
            )*
            /// The end of the text, after its last token.
            EndOfFile,
        }

        impl TokenValue {
            /// The value that a record's kind and value cells hold; none for a number that is no kind.
            pub(crate) fn from_cells(kind: u32, value: u32) -> Option<Self> {
                Some(match kind {
                    1 => Self::Local(Identifier(value as usize)),
                    2 => Self::Global(Identifier(value as usize)),
                    3 => Self::Label(Identifier(value as usize)),
                    4 => Self::Integer(value.cast_signed()),
                    $($kind => Self::$variant,)*
                    38 => Self::EndOfFile,
                    _ => return None,
                })
            }

            /// A word for the kind: `local`, `global`, `label`, `integer`, `END_OF_FILE`, or the token's own text.
            ///
            /// ```
            /// use pitchsleet::TokenValue;
            ///
            /// assert_eq!(TokenValue::Integer(7).kind(), "integer");
            /// assert_eq!(TokenValue::LessThanOrEq.kind(), "le");
            /// ```
            #[must_use]
            pub fn kind(self) -> &'static str {
                match self {
                    Self::Local(_) => "local",
                    Self::Global(_) => "global",
                    Self::Label(_) => "label",
                    Self::Integer(_) => "integer",
                    $(Self::$variant => $spelling,)*
                    Self::EndOfFile => "END_OF_FILE",
                }
            }
        }
    };
}

values! {
    Add 5 "add",
    Mul 6 "mul",
    Sub 7 "sub",
    Div 8 "div",
    Mod 9 "mod",
    True 10 "true",
    False 11 "false",
    Equal 12 "eq",
    LessThan 13 "lt",
    GreaterThan 14 "gt",
    LessThanOrEq 15 "le",
    GreaterThanOrEq 16 "ge",
    Not 17 "not",
    And 18 "and",
    Or 19 "or",
    Jump 20 "jmp",
    Branch 21 "br",
    Call 22 "call",
    Return 23 "ret",
    Define 24 "=",
    LeftParen 25 "(",
    RightParen 26 ")",
    LeftBrace 27 "{",
    RightBrace 28 "}",
    Colon 29 ":",
    Semicolon 30 ";",
    Comma 31 ",",
    Int 32 "int",
    Bool 33 "bool",
    Const 34 "const",
    Print 35 "print",
    Nop 36 "nop",
    Identity 37 "id",
}

impl TokenValue {
    /// The number of the name that the token is, if it is one.
    #[must_use]
    pub fn identifier(self) -> Option<Identifier> {
        match self {
            Self::Local(name) | Self::Global(name) | Self::Label(name) => Some(name),
            _ => None,
        }
    }
}

/// A token: what it is, and where it stands.
#[derive(Clone, Copy, Debug, PartialEq, Eq)]
pub struct Token<'a> {
    /// What it is.
    pub value: TokenValue,
    /// The line that it stands on, from 1. A newline in a comment is not counted.
    pub line: u32,
    /// Its first byte's index in the text; for the end of the text, the text's length.
    pub place: usize,
    /// Its bytes, as they stand in the text: `007` for the integer 7, nothing for the end of the text.
    pub spelling: &'a str,
}

/// The spelling; `END_OF_FILE` for the end of the text.
impl Display for Token<'_> {
    fn fmt(&self, f: &mut Formatter<'_>) -> fmt::Result {
        match self.value {
            TokenValue::EndOfFile => f.write_str(self.value.kind()),
            _ => f.write_str(self.spelling),
        }
    }
}

/// A name: its spelling, sigil and all, and where it first appears.
#[derive(Clone, Copy, Debug, PartialEq, Eq)]
pub struct Name<'a> {
    /// Its number.
    pub identifier: Identifier,
    /// The index of its first appearance in the text.
    pub place: usize,
    /// Its bytes: `x`, `@main`, `.loop`.
    pub spelling: &'a str,
}

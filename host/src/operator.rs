//! What an operation computes: operators and constants.
use core::fmt::{self, Display, Formatter};

use crate::token::TokenValue;

macro_rules! operators {
    ($(#[$about:meta])* $operator:ident: $($(#[$says:meta])* $variant:ident,)*) => {
        $(#[$about])*
        #[derive(Clone, Copy, Debug, PartialEq, Eq, Hash)]
        pub enum $operator {
            $($(#[$says])* $variant,)*
        }

        impl $operator {
            /// The operator that a word is.
            pub(crate) fn of(word: TokenValue) -> Option<Self> {
                match word {
                    $(TokenValue::$variant => Some(Self::$variant),)*
                    _ => None,
                }
            }

            /// Its word in a text.
            #[must_use]
            pub fn word(self) -> &'static str {
                match self {
                    $(Self::$variant => TokenValue::$variant.kind(),)*
                }
            }
        }

        /// Its word in a text.
        impl Display for $operator {
            fn fmt(&self, f: &mut Formatter<'_>) -> fmt::Result {
                f.write_str(self.word())
            }
        }
    };
}

operators! {
    /// An operator of two operands.
    ///
    /// ```
    /// use pitchsleet::BinaryOperator;
    ///
    /// assert_eq!(BinaryOperator::LessThanOrEq.word(), "le");
    /// ```
    BinaryOperator:
    /// `add`: the sum of two numbers.
    Add,
    /// `mul`: the product of two numbers.
    Mul,
    /// `sub`: the first number less the second.
    Sub,
    /// `div`: the first number divided by the second.
    Div,
    /// `mod`: what is left of that division.
    Mod,
    /// `eq`: whether two numbers, or two truth values, are equal.
    Equal,
    /// `lt`: whether the first number is less than the second.
    LessThan,
    /// `gt`: whether the first number is greater than the second.
    GreaterThan,
    /// `le`: whether the first number is less than the second, or equal.
    LessThanOrEq,
    /// `ge`: whether the first number is greater than the second, or equal.
    GreaterThanOrEq,
    /// `and`: whether both are true.
    And,
    /// `or`: whether one of them is true.
    Or,
}

operators! {
    /// An operator of one operand.
    UnaryOperator:
    /// `id`: the operand itself, a number or a truth value.
    Identity,
    /// `not`: whether the operand is false.
    Not,
}

/// The value of a `const`.
#[derive(Clone, Copy, Debug, PartialEq, Eq, Hash)]
pub enum Constant {
    /// A number.
    Int(i32),
    /// `true` or `false`.
    Bool(bool),
}

impl Constant {
    /// The constant that a token is.
    pub(crate) fn of(token: TokenValue) -> Option<Self> {
        match token {
            TokenValue::Integer(number) => Some(Self::Int(number)),
            TokenValue::True => Some(Self::Bool(true)),
            TokenValue::False => Some(Self::Bool(false)),
            _ => None,
        }
    }
}

/// The number in decimal, or `true` or `false`.
impl Display for Constant {
    fn fmt(&self, f: &mut Formatter<'_>) -> fmt::Result {
        match self {
            Self::Int(number) => write!(f, "{number}"),
            Self::Bool(value) => write!(f, "{value}"),
        }
    }
}

//! Types, and names that have one.
use core::fmt::{self, Display, Formatter};

use crate::records::index;
use crate::token::Identifier;

/// A type, as in the Rust original.
#[derive(Clone, Copy, Debug, PartialEq, Eq, Hash)]
pub enum Type {
    /// No type: that of an operand of `ret`, `print` and `br`, whose type isn't kept.
    Placeholder,
    /// A number of 32 bits.
    Int,
    /// True or false.
    Bool,
    /// No value: what a function without a result gives.
    Void,
    /// A function type, by its number. Function types count from 0 in the order of the text, and equal ones share a
    /// number. In a function that was rechecked the numbers are those of the old text.
    Fn(usize),
}

impl Type {
    /// The type that a cell holds.
    pub(crate) fn from_cell(cell: u32) -> Self {
        match cell {
            0 => Self::Placeholder,
            1 => Self::Int,
            2 => Self::Bool,
            3 => Self::Void,
            function => Self::Fn(function as usize - 4),
        }
    }
}

/// The word of a type; `fn` and the number of a function type.
impl Display for Type {
    fn fmt(&self, f: &mut Formatter<'_>) -> fmt::Result {
        match self {
            Self::Placeholder => f.write_str("placeholder"),
            Self::Int => f.write_str("int"),
            Self::Bool => f.write_str("bool"),
            Self::Void => f.write_str("void"),
            Self::Fn(number) => write!(f, "fn {number}"),
        }
    }
}

/// A name with its type: a formal, a result, an operand, or the function that a call calls.
#[derive(Clone, Copy, Debug, PartialEq, Eq, Hash)]
pub struct Variable {
    /// The name's number.
    pub name: Identifier,
    /// Its type.
    pub ty: Type,
}

impl Variable {
    /// The variable of two cells of a record, the first and the one behind it.
    pub(crate) fn from_cells(record: &[u32], first: usize) -> Self {
        Self { name: Identifier(index(record, first)), ty: Type::from_cell(record[first + 1]) }
    }
}

//! A verified reader and type checker of Bril text.
//!
//! Bril is a small intermediate language for compilers. This crate turns a text in its written form into tokens and names
//! ([`Reader::read`]), or into functions with blocks, edges and typed operations ([`Reader::check`]), or refuses it with a
//! number, a line, a place and a message. Where one function of an accepted text is changed, the new one is checked by
//! itself against the headers of the others ([`Reader::recheck`]). The functions that do it are written in Rattle and
//! proved: for every input they end, stay inside the buffers that they are lent, and answer what a definition of Bril's
//! lexing, grammar and typing says.
//! This crate links the archive that is built from the proved functions, and adds buffers, types and a command-line tool.
//!
//! ```
//! use pitchsleet::{Reader, TokenValue};
//!
//! let mut reader = Reader::new();
//! let tokens = reader.read(b"@main { v: int = const 5; print v; }")?;
//! for token in tokens {
//!     if let TokenValue::Integer(number) = token.value {
//!         println!("line {}: the number {number}, written {}", token.line, token.spelling);
//!     }
//! }
//!
//! let refusal = reader.read(b"@main { v: int = const $5; }").unwrap_err();
//! assert_eq!(refusal.number(), 3);
//! assert_eq!(refusal.to_string(), "refused 3 at byte 23: [line 1] Error : Unexpected token: '$'.");
//!
//! let unit = reader.check(b"@main { v: int = const 5; print v; }")?;
//! for function in unit.functions() {
//!     for block in function.blocks() {
//!         println!("{}, block {}: {} operations", function.name().spelling, block.number(), block.operations().len());
//!     }
//! }
//!
//! let headers = unit.headers();
//! let main = headers.position("@main").expect("there is one");
//! let unit = reader.recheck(&headers, main, b"@main { v: int = const 6; print v; }")?;
//! assert_eq!(unit.function_count(), 1);
//! # Ok::<(), pitchsleet::Refusal>(())
//! ```
//!
//! # What is read, and how lines are counted
//!
//! The rules are those of a Rust original, Xazax-hun/domains-oxide, whose tokens, names and messages this crate gives back
//! byte for byte, but that it refuses a number above 2147483647, which the original drops without a word
//! ([`RefusalKind::NumberOutOfRange`]). Some of the rules surprise:
//!
//! - A newline adds one to the line, but not inside a comment: neither one that ends a `#` or `//` comment nor one between
//!   `/*` and `*/`. So a [`Token::line`] may be less than the line that an editor shows. [`Token::place`] is exact, and
//!   [`Lines`] makes a file's line and column of it.
//! - After a star in a comment the next byte is passed over whatever it is, so `/***/` is not closed.
//! - All bytes must be ASCII, in comments too.
//! - The condition of a `br` is never looked up, nor is what `print` prints: both may be any name.
//! - A block that ends without `jmp`, `br` or `ret` doesn't fall through: a void function gets a `ret` there, any other is
//!   refused.
//! - Two labels in a row, but at a function's start, leave an empty block between them, which is refused.
//!
//! Of names that nothing sets, dead blocks, and blocks that don't fall through, [`Unit::warnings`] tells.
//!
//! # Limits
//!
//! A text has at most 16,384 bytes, 4,096 tokens with the end of the text, and 1,024 names of at most 64 bytes with their
//! sigil; at most 64 functions of at most 16 formals and 255 labels each; and a call has at most 16 arguments.
//! What is over a limit is refused with a number of its own ([`RefusalKind`] has them all).
#![warn(missing_docs)]
#![deny(unsafe_code, unsafe_op_in_unsafe_fn)]

#[macro_use]
mod each;
mod headers;
mod lines;
mod operation;
mod operator;
mod owned;
mod printable;
pub mod raw;
mod reader;
mod records;
mod refusal;
mod token;
mod tokens_iter;
mod types;
mod unit;
mod warning;

pub use headers::Headers;
pub use lines::{Lines, Position};
pub use operation::{Arguments, ArgumentsIter, Operation, OperationValue};
pub use operator::{BinaryOperator, Constant, UnaryOperator};
pub use owned::OwnedUnit;
pub use printable::Printable;
pub use reader::{Reader, Tokens};
pub use refusal::{Refusal, RefusalKind};
pub use token::{Identifier, Name, Token, TokenValue};
pub use tokens_iter::TokensIter;
pub use types::{Type, Variable};
pub use unit::{Block, Edges, EdgesIter, Function, Label, Unit};
pub use warning::{Warning, WarningKind};

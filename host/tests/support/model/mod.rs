//! Document 01's reading, checking and rechecking, with what has landed of document 02 (A2), written from their sentences. It
//! has no code in common with the proved crates or with the Rust, and it alone decides what the limits do, what a number out of
//! range is and what an empty block is, which the Rust doesn't have.
mod parsing;
pub mod reading;
mod rechecking;
mod typing;

use super::said::{Said, SaidFunction, SaidName, SaidToken};

pub use reading::read;
pub use rechecking::recheck;

pub const BYTES: usize = 16_384;
pub const TOKENS: usize = 4_096;
pub const NAMES: usize = 1_024;
pub const NAME: usize = 64;
pub const FUNCTIONS: usize = 64;
pub const FORMALS: usize = 16;
pub const ARGUMENTS: usize = 16;
pub const LABELS: usize = 255;

/// A header table's size: the count, and 64 rows of 45 cells.
pub const TABLE: usize = 1 + FUNCTIONS * ROW;
pub const ROW: usize = 45;

/// The model's answer to a text, and what a comparison with the Rust must know of it.
pub struct Checked {
    pub said: Said,
    /// Whether typing came to blocks whose order the Rust's sources don't fix: those that no path leads to, and the one that
    /// ties with them, which the walk leaves first. Each of them is typed after all others.
    pub order_is_open: bool,
}

/// A refusal at a token: what the message says after `[line N] Error `.
struct Stop {
    number: u32,
    token: usize,
    item: String,
    words: String,
}

/// The answer to a text that is checked.
pub fn check(text: &[u8]) -> Checked {
    of_tokens(read(text), |tokens, names, order_is_open| {
        let functions = parsing::functions(tokens, names)?;
        let heads = typing::heads_of(&functions);
        typing::all(functions, &heads, tokens, names, order_is_open)
    })
}

/// What comes of the tokens of a text, if it has been read: its functions or one refusal at a token.
fn of_tokens(
    said: Said,
    functions: impl FnOnce(&[SaidToken], &[SaidName], &mut bool) -> Result<Vec<SaidFunction>, Stop>,
) -> Checked {
    let Said::Accepted { tokens, names, .. } = said else {
        return Checked { said, order_is_open: false };
    };
    let mut order_is_open = false;
    let said = match functions(&tokens, &names, &mut order_is_open) {
        Ok(functions) => Said::Accepted { tokens, names, functions },
        Err(Stop { number, token, item, words }) => {
            let SaidToken { line, place, .. } = tokens[token];
            refused(number, line, place, &item, &words)
        }
    };
    Checked { said, order_is_open }
}

fn refused(number: u32, line: u32, place: usize, item: &str, words: &str) -> Said {
    let message = format!("[line {line}] Error {item}: {words}\n").into_bytes();
    Said::Refused { number, line, place, message }
}

/// `at 'x'`, with a name's own spelling.
fn at(name: &str) -> String {
    format!("at '{name}'")
}

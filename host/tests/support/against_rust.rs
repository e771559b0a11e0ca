//! This crate against the Rust original: every field that the Rust has.
use std::fmt::Debug;

use pitchsleet::Printable;

use super::model;
use super::oracle::{RustFunction, RustOperation, RustSaid, RustToken};
use super::said::{Said, SaidFunction, SaidName, SaidOperation, SaidToken};

/// Every field that the Rust has must be equal. A place, which it has not, is right where the text has at it what the Rust
/// speaks of. An empty block is 22 here and a panic there.
pub fn compare_with_rust(text: &[u8], said: &Said, rust: &RustSaid) -> Result<(), String> {
    match (said, rust) {
        (Said::Refused { number: 22, .. }, RustSaid::Panicked) => Ok(()),
        (Said::Refused { number, line, place, message }, RustSaid::Refused { message: theirs }) => {
            same("message", &Printable(message).to_string(), &Printable(theirs).to_string())?;
            same("message's line", &line_in(theirs), &Some(*line))?;
            same("number by its text", &number_of(theirs), &Some(*number))?;
            refusal_stands_at(text, *number, *place, theirs)
        }
        (
            Said::Accepted { tokens, names, functions },
            RustSaid::Accepted { tokens: theirs, names: their_names, functions: their_functions },
        ) => {
            same("count of tokens", &tokens.len(), &theirs.len())?;
            for (token, theirs) in tokens.iter().zip(theirs) {
                compare_tokens(text, token, theirs, their_names)?;
            }
            let spellings: Vec<&str> = names.iter().map(|name| name.spelling.as_str()).collect();
            same("list of names", &spellings, &their_names.iter().map(String::as_str).collect())?;
            names.iter().try_for_each(|name| name_stands(text, name))?;
            rising(tokens.iter().map(|token| token.place))?;
            rising(names.iter().map(|name| name.place))?;
            same("count of functions", &functions.len(), &their_functions.len())?;
            for (function, theirs) in functions.iter().zip(their_functions) {
                compare_functions(tokens, function, theirs)?;
            }
            Ok(())
        }
        (said, rust) => Err(format!("this crate says {said}\n  the Rust {rust:?}")),
    }
}

fn compare_functions(tokens: &[SaidToken], function: &SaidFunction, rust: &RustFunction) -> Result<(), String> {
    same("function's name", &function.name, &rust.name)?;
    same("function's line", &function.line, &rust.line)?;
    same("function type", &format!("fn {}", function.type_number), &rust.ty)?;
    same("result type", &function.result.long_word(), &rust.result)?;
    let formals: Vec<(usize, String)> = function.formals.iter().map(|v| (v.name, v.ty.long_word())).collect();
    same("formals", &formals, &rust.formals)?;
    same("types of formals", &formals.into_iter().map(|(_, ty)| ty).collect(), &rust.types)?;
    same("count of blocks", &function.blocks.len(), &rust.blocks.len())?;
    for (block, theirs) in function.blocks.iter().zip(&rust.blocks) {
        same("successors", &block.successors, &theirs.successors)?;
        same("predecessors", &block.predecessors, &theirs.predecessors)?;
        let operations: Vec<RustOperation> = block.operations.iter().map(|op| as_in_rust(tokens, op)).collect();
        same("operations", &operations, &theirs.operations)?;
    }
    Ok(())
}

/// An operation with what the Rust has of it: of its token how it is shown, and its line.
fn as_in_rust(tokens: &[SaidToken], operation: &SaidOperation) -> RustOperation {
    let token = &tokens[operation.token];
    RustOperation {
        kind: operation.kind.to_owned(),
        token: (token.shown(), token.line),
        result: operation.result.map(|v| (v.name, v.ty.long_word())),
        callee: operation.callee.map(|v| (v.name, v.ty.long_word())),
        operands: operation.operands.iter().map(|v| (v.name, v.ty.long_word())).collect(),
        labels: operation.labels.clone(),
    }
}

fn same<T: PartialEq + Debug>(what: &str, ours: &T, theirs: &T) -> Result<(), String> {
    if ours == theirs { Ok(()) } else { Err(format!("the {what}: this crate says {ours:?}, the Rust {theirs:?}")) }
}

fn compare_tokens(text: &[u8], token: &SaidToken, rust: &RustToken, names: &[String]) -> Result<(), String> {
    same("kind", &token.kind, &rust.kind.as_str())?;
    same("value", &token.value, &rust.value)?;
    same("line", &i64::from(token.line), &rust.line)?;
    if token_stands_at(text, token.place, rust, names) {
        Ok(())
    } else {
        Err(format!("the place {}: {rust:?} does not stand there", token.place))
    }
}

/// Whether the text has a token of the Rust's at a place: its spelling, and nothing after it that would belong to it.
fn token_stands_at(text: &[u8], place: usize, token: &RustToken, names: &[String]) -> bool {
    let Some(rest) = text.get(place..) else { return false };
    match (token.kind.as_str(), token.value) {
        ("END_OF_FILE", _) => rest.is_empty(),
        ("integer", Some(value)) => integer_at_front(rest) == Some(value),
        ("local" | "global" | "label", Some(number)) => word_at_front(rest) == names[number as usize].as_bytes(),
        (word, _) if word.as_bytes()[0].is_ascii_alphabetic() => word_at_front(rest) == word.as_bytes(),
        (symbol, _) => rest.starts_with(symbol.as_bytes()),
    }
}

fn name_stands(text: &[u8], name: &SaidName) -> Result<(), String> {
    let stands = text.get(name.place..).is_some_and(|rest| word_at_front(rest) == name.spelling.as_bytes());
    if stands {
        Ok(())
    } else {
        Err(format!("the place {}: the name {} does not stand there", name.place, name.spelling))
    }
}

fn integer_at_front(rest: &[u8]) -> Option<i64> {
    let digits = rest.iter().skip(1).take_while(|byte| byte.is_ascii_digit()).count();
    let spelling = str::from_utf8(rest.get(..1 + digits)?).ok()?;
    spelling.parse().ok()
}

fn word_at_front(rest: &[u8]) -> &[u8] {
    let parts = rest.iter().skip(1).take_while(|byte| byte.is_ascii_alphanumeric() || **byte == b'_').count();
    &rest[..rest.len().min(1 + parts)]
}

fn rising(places: impl Iterator<Item = usize> + Clone) -> Result<(), String> {
    match places.clone().zip(places.skip(1)).find(|(one, next)| next <= one) {
        None => Ok(()),
        Some((one, next)) => Err(format!("the places: {next} comes after {one}")),
    }
}

/// The line that a message begins with, `[line N]`.
fn line_in(message: &[u8]) -> Option<u32> {
    let rest = message.strip_prefix(b"[line ")?;
    let end = rest.iter().position(|&byte| byte == b']')?;
    str::from_utf8(&rest[..end]).ok()?.parse().ok()
}

/// The ITEM and the TEXT of a message, `[line N] Error ITEM: TEXT`.
fn parts(message: &[u8]) -> Option<(&str, &str)> {
    let (_, rest) = str::from_utf8(message).ok()?.split_once(" Error ")?;
    rest.strip_suffix('\n')?.split_once(": ")
}

/// Document 01's number for a text of the Rust's.
fn number_of(message: &[u8]) -> Option<u32> {
    let (_, text) = parts(message)?;
    // How the texts of 1 to 21 begin, where that tells them from each other.
    let begins = [
        "Only ASCII input", "Multiline comment no closed", "Unexpected token: '", "Expected number after '-'", "",
        "Local identifier expected.", "Global identifier expected.", "Label identifier expected.", "Type expected.",
        "Integer or boolean constant expected.", "Unexpected token.", "Basic block must start with a label.",
        "Duplicate label found.", "Branch target '", "Unexpected type '", "Undefined identifier.", "",
        "Void functions cannot return a value.", "Non-void functions must return a value.", "",
        "Block terminator expected to be jump, br, or ret.",
    ];
    let by_begin = begins.iter().position(|begin| !begin.is_empty() && text.starts_with(begin));
    let number = match by_begin {
        Some(at) => at + 1,
        None if text.contains("' type expected; '") => 17,
        None if text.contains(" arguments expected, got ") => 20,
        None if text.starts_with('\'') && text.ends_with("' expected.") => 5,
        None => return None,
    };
    Some(number as u32)
}

fn refusal_stands_at(text: &[u8], number: u32, place: usize, message: &[u8]) -> Result<(), String> {
    let rest = &text[place.min(text.len())..];
    let stands = match number {
        1 => place == 0 && !text.is_ascii(),
        2 => rest.starts_with(b"/*"),
        3 => rest.first() == message.len().checked_sub(4).and_then(|at| message.get(at)),
        4 => rest.starts_with(b"-"),
        _ => token_is_meant(text, number, place, message),
    };
    if stands { Ok(()) } else { Err(format!("the place {place}: what {number} speaks of does not stand there")) }
}

/// Whether the token at a place may be the one that a message of the parser reports with.
fn token_is_meant(text: &[u8], number: u32, place: usize, message: &[u8]) -> bool {
    let Said::Accepted { tokens, .. } = model::read(text) else { return false };
    let (Some(token), Some((item, _))) = (tokens.iter().find(|token| token.place == place), parts(message)) else {
        return false;
    };
    let spelled = || item == format!("at '{}'", String::from_utf8_lossy(word_at_front(&text[place..])));
    match number {
        13 => token.kind == "label" && spelled(),
        14 => ["br", "jmp"].contains(&token.kind),
        // Of two functions or of a formal it is the function's name; else an operation's token, of which the message says
        // nothing.
        15 | 16 => !["local", "label", ":", ";", "(", ")", "{", "}", "=", "END_OF_FILE"].contains(&token.kind),
        _ => item == token.item(),
    }
}

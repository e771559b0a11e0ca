//! What a person wants to know of a refusal and its message doesn't say.
use pitchsleet::raw::TEXT_BYTES;
use pitchsleet::{Headers, Identifier, Reader, Refusal, RefusalKind, Token, TokenValue, Tokens};

use crate::source::Span;

/// A sentence, and where it has one a place in the text.
pub struct Note {
    pub words: String,
    pub span: Option<Span>,
}

/// What was refused: a text by itself, the text that was to be edited, or a new function for it.
pub enum Refused<'a> {
    Text,
    Old,
    New(Replaced<'a>),
}

/// The function that a new text was to replace: the old text's headers, its number, and its header where it has one.
pub struct Replaced<'a> {
    pub headers: &'a Headers,
    pub number: usize,
    pub header: Option<String>,
}

pub fn of(refusal: &Refusal, text: &[u8], refused: &Refused<'_>) -> Vec<Note> {
    let mut notes = on_the_text(refusal, text);
    notes.extend(on_lines(refusal, text, refused));
    match refused {
        Refused::Text => {}
        Refused::Old => {
            notes.push(said("this is the old file, which must be accepted as it is; the new one was not looked at"));
        }
        Refused::New(replaced) => notes.extend(on_the_replaced(refusal, replaced)),
    }
    notes
}

fn said(words: impl Into<String>) -> Note {
    Note { words: words.into(), span: None }
}

fn at(place: usize, length: usize, words: impl Into<String>) -> Note {
    Note { words: words.into(), span: Some(Span { place, length }) }
}

/// Behind lexing the text has tokens: a reading of it gives them.
fn on_the_text(refusal: &Refusal, text: &[u8]) -> Vec<Note> {
    match refusal.kind() {
        RefusalKind::TooManyBytes => vec![said(format!("the text has more than {TEXT_BYTES} bytes"))],
        RefusalKind::NumberOutOfRange => vec![said(format!("the largest number is {}", i32::MAX))],
        RefusalKind::NotAscii => {
            let first = text.iter().position(|byte| !byte.is_ascii());
            first.map(|place| at(place, 1, "this is the first byte above 127")).into_iter().collect()
        }
        kind => match Reader::new().read(text) {
            Ok(tokens) => on_tokens(refusal, kind, &tokens),
            Err(_) => Vec::new(),
        },
    }
}

fn on_tokens(refusal: &Refusal, kind: RefusalKind, tokens: &Tokens<'_, '_>) -> Vec<Note> {
    let Some(token) = tokens.at_place(refusal.place()) else {
        return Vec::new();
    };
    let note = match kind {
        RefusalKind::Undefined => undefined(refusal, tokens, token),
        RefusalKind::EmptyBlock => empty_block(tokens, token),
        _ => None,
    };
    numbered_name(refusal, tokens).into_iter().chain(note).collect()
}

/// What stands in a message between `at '` and the next quote.
fn quoted(refusal: &Refusal) -> Option<&str> {
    let (_, rest) = str::from_utf8(refusal.message()).ok()?.split_once(" Error at '")?;
    rest.split_once('\'').map(|(quoted, _)| quoted)
}

/// A token that is a name is called by its number in a message: `local_4`.
fn numbered_name(refusal: &Refusal, tokens: &Tokens<'_, '_>) -> Option<Note> {
    let quoted = quoted(refusal)?;
    let token = tokens.get(tokens.at_place(refusal.place())?)?;
    let Identifier(number) = token.value.identifier()?;
    let is_numbered = quoted == format!("{}_{number}", token.value.kind()) && quoted != token.spelling;
    is_numbered.then(|| said(format!("{quoted} is '{}'", token.spelling)))
}

/// Which of an operation's names it is that isn't there: the first of those behind its word that is spelled so.
fn undefined(refusal: &Refusal, tokens: &Tokens<'_, '_>, operation: usize) -> Option<Note> {
    let name = quoted(refusal)?;
    let mut behind = tokens.iter().skip(operation + 1).take_while(|token| token.value != TokenValue::Semicolon);
    let token = behind.find(|token| token.spelling == name)?;
    let words = match token.value {
        TokenValue::Global(_) => format!("no function is named '{name}'"),
        _ if is_set_around(tokens, operation, name) => {
            // Blocks are checked in the order of the edges, which is not always that of the text.
            format!("only this operation, or one that is checked after it, sets '{name}'")
        }
        _ => format!("no operation of the function sets '{name}', and no formal is named so"),
    };
    Some(at(token.place, name.len(), words))
}

/// Whether a name is set in the function that has the operation with an index: `NAME :` between two functions' ends.
fn is_set_around(tokens: &Tokens<'_, '_>, operation: usize, name: &str) -> bool {
    let is_end = |token: &Token<'_>| token.value == TokenValue::RightBrace;
    let before = tokens.iter().take(operation).collect::<Vec<_>>();
    let start = before.iter().rposition(is_end).map_or(0, |end| end + 1);
    let function: Vec<Token<'_>> = tokens.iter().skip(start).take_while(|token| !is_end(token)).collect();
    function.windows(2).any(|two| two[0].spelling == name && two[1].value == TokenValue::Colon)
}

/// The first block without an operation, in the function whose name stands at an index. Labels at a function's start all
/// name its first block, and each later one begins a block.
fn empty_block(tokens: &Tokens<'_, '_>, name: usize) -> Option<Note> {
    let body = tokens.iter().skip(name).skip_while(|token| token.value != TokenValue::LeftBrace);
    let body: Vec<_> = body.take_while(|token| token.value != TokenValue::RightBrace).collect();
    let (mut label, mut is_start, mut is_empty) = (*body.first()?, true, true);
    for (token, next) in body.iter().zip(body.iter().skip(1)) {
        match (token.value, next.value) {
            (TokenValue::Label(_), TokenValue::Colon) if is_empty && !is_start => break,
            (TokenValue::Label(_), TokenValue::Colon) => (label, is_empty) = (*token, true),
            (_, TokenValue::Semicolon) => (is_start, is_empty) = (false, false),
            _ => {}
        }
    }
    let words = match (is_empty, label.value) {
        (false, _) => return None,
        (true, TokenValue::LeftBrace) => "the function has no operation".to_owned(),
        (true, _) => format!("the block '{}' has no operation", label.spelling),
    };
    Some(at(label.place, label.spelling.len(), words))
}

/// Where a message's line isn't the file's: which it is, and why.
fn on_lines(refusal: &Refusal, text: &[u8], refused: &Refused<'_>) -> Option<Note> {
    if refusal.kind() == RefusalKind::NotAscii {
        // Its line is the first one, wherever the byte stands, and the note at the byte has told.
        return None;
    }
    let counted = refusal.line() as usize;
    let of_file = refusal.position(text)?.line;
    let first = match refused {
        Refused::New(replaced) => replaced.headers.line(replaced.number).unwrap_or(1) as usize,
        _ => 1,
    };
    if counted == of_file {
        return None;
    }
    let (file, start) = match first {
        1 => ("the file", None),
        line => ("the new file", Some(format!("the function that is replaced is on line {line}"))),
    };
    let in_comments = first + of_file - 1 != counted;
    let in_comments = in_comments.then(|| "newlines in comments are not counted".to_owned());
    let why: Vec<String> = [start, in_comments].into_iter().flatten().collect();
    Some(said(format!("the message's line {counted} is line {of_file} of {file}: {}", why.join(", and "))))
}

fn on_the_replaced(refusal: &Refusal, replaced: &Replaced<'_>) -> Option<Note> {
    match (refusal.kind(), refusal.place(), &replaced.header) {
        (RefusalKind::NotOneFunction, 0, _) => {
            let words =
                "a new file runs from a function's name to its closing brace, and not even a newline stands behind it";
            Some(said(words))
        }
        (RefusalKind::HeaderChanged, _, Some(header)) => {
            Some(said(format!("the function that is replaced is {header}; its name and types must stay")))
        }
        (RefusalKind::BadTable, ..) => {
            let count = crate::human::counted(replaced.headers.len(), "function");
            Some(said(format!("the old file has {count}, numbered from 0")))
        }
        _ => None,
    }
}

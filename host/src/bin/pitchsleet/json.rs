//! An answer as one line of JSON.
use std::ffi::OsStr;
use std::io::{self, Write};

use pitchsleet::{
    Block, Function, Label, Lines, Operation, OperationValue, Position, Refusal, Token, TokenValue, Tokens, Type, Unit,
    Variable, Warning,
};

/// What is answered: the bytes of a text, and the file's name where it comes from one.
#[derive(Clone, Copy)]
pub struct Asked<'a> {
    pub file: Option<&'a OsStr>,
    pub text: &'a [u8],
}

pub fn write_read(out: &mut impl Write, asked: Asked<'_>, answer: &Result<Tokens<'_, '_>, Refusal>) -> io::Result<()> {
    match answer {
        Ok(tokens) => {
            accepted(out, asked, tokens)?;
            end_accepted(out, asked, &[])
        }
        Err(refusal) => refused(out, asked, refusal, ""),
    }
}

pub fn write_check(out: &mut impl Write, asked: Asked<'_>, answer: &Result<Unit<'_, '_>, Refusal>) -> io::Result<()> {
    match answer {
        Ok(unit) => {
            accepted(out, asked, &unit.tokens())?;
            write!(out, r#","functions":"#)?;
            list(out, unit.functions(), function)?;
            end_accepted(out, asked, &unit.warnings())
        }
        Err(refusal) => refused(out, asked, refusal, ""),
    }
}

/// The answer of a recheck whose old text is refused. All its others are those of a check.
pub fn write_old_refused(out: &mut impl Write, old: Asked<'_>, refusal: &Refusal) -> io::Result<()> {
    refused(out, old, refusal, r#","old":true"#)
}

/// An accepted text's answer, but for its end.
fn accepted(out: &mut impl Write, asked: Asked<'_>, tokens: &Tokens<'_, '_>) -> io::Result<()> {
    begin(out, asked)?;
    write!(out, r#""number":0,"line":0,"place":0,"message":"","tokens":"#)?;
    list(out, tokens.iter(), token)?;
    write!(out, r#","names":"#)?;
    list(out, tokens.names(), |out, name| string(out, name.spelling.as_bytes()))
}

fn end_accepted(out: &mut impl Write, asked: Asked<'_>, warnings: &[Warning<'_>]) -> io::Result<()> {
    let lines = Lines::new(asked.text);
    write!(out, r#","warnings":"#)?;
    list(out, warnings.iter(), |out, warning| {
        write!(out, r#"{{"kind":"{}","place":{}"#, warning.kind.word(), warning.place)?;
        position(out, Some(lines.position(warning.place)))?;
        write!(out, r#","message":"#)?;
        string(out, warning.to_string().as_bytes())?;
        write!(out, "}}")
    })?;
    writeln!(out, "}}")
}

/// A refused text's answer, with more behind it.
fn refused(out: &mut impl Write, asked: Asked<'_>, refusal: &Refusal, more: &str) -> io::Result<()> {
    let (number, line, place) = (refusal.number(), refusal.line(), refusal.place());
    begin(out, asked)?;
    write!(out, r#""number":{number},"line":{line},"place":{place},"message":"#)?;
    string(out, refusal.message())?;
    position(out, refusal.position(asked.text))?;
    writeln!(out, "{more}}}")
}

fn begin(out: &mut impl Write, asked: Asked<'_>) -> io::Result<()> {
    write!(out, "{{")?;
    if let Some(file) = asked.file {
        write!(out, r#""file":"#)?;
        name(out, &file.to_string_lossy())?;
        write!(out, ",")?;
    }
    Ok(())
}

fn position(out: &mut impl Write, position: Option<Position>) -> io::Result<()> {
    match position {
        Some(Position { line, column }) => write!(out, r#","file_line":{line},"file_column":{column}"#),
        None => write!(out, r#","file_line":null,"file_column":null"#),
    }
}

/// A file's name: of all that is written, it alone may have more than ASCII.
fn name(out: &mut impl Write, name: &str) -> io::Result<()> {
    write!(out, "\"")?;
    for character in name.chars() {
        match character {
            '"' | '\\' => write!(out, "\\{character}")?,
            '\0'..'\x20' => write!(out, "\\u{:04x}", u32::from(character))?,
            _ => write!(out, "{character}")?,
        }
    }
    write!(out, "\"")
}

fn token<W: Write>(out: &mut W, token: Token<'_>) -> io::Result<()> {
    write!(out, "[")?;
    string(out, token.value.kind().as_bytes())?;
    match (token.value, token.value.identifier()) {
        (_, Some(name)) => write!(out, ",{}", name.0)?,
        (TokenValue::Integer(number), _) => write!(out, ",{number}")?,
        _ => write!(out, ",null")?,
    }
    write!(out, ",{},{}]", token.line, token.place)
}

fn function<W: Write>(out: &mut W, function: Function<'_, '_>) -> io::Result<()> {
    let name = function.name();
    let (token, number, line) = (function.token(), name.identifier.0, function.line());
    let (place, length) = (function.place(), name.spelling.len());
    write!(out, r#"{{"token":{token},"name":{number},"line":{line},"name_place":{place},"name_length":{length}"#)?;
    write!(out, r#","formals":"#)?;
    list(out, function.formals(), variable)?;
    write!(out, r#","ret":"{}","types":"#, function.result())?;
    list(out, function.formals(), |out, formal| write!(out, "\"{}\"", formal.ty))?;
    if let Type::Fn(number) = function.ty() {
        write!(out, r#","type":{number}"#)?;
    }
    write!(out, r#","labels":"#)?;
    list(out, function.labels(), label)?;
    write!(out, r#","end_token":{},"end_place":{},"blocks":"#, function.end_token(), function.end_place())?;
    list(out, function.blocks(), block)?;
    write!(out, "}}")
}

fn label<W: Write>(out: &mut W, label: Label) -> io::Result<()> {
    write!(out, "[{},{},{}]", label.name.0, label.token, label.block)
}

fn block<W: Write>(out: &mut W, block: Block<'_, '_>) -> io::Result<()> {
    write!(out, r#"{{"ops":"#)?;
    list(out, block.operations(), operation)?;
    write!(out, r#","succs":"#)?;
    list(out, block.successors().iter(), number)?;
    write!(out, r#","preds":"#)?;
    list(out, block.predecessors().iter(), number)?;
    write!(out, r#","dead":{}}}"#, block.is_dead())
}

fn operation<W: Write>(out: &mut W, operation: Operation<'_>) -> io::Result<()> {
    write!(out, r#"{{"kind":"{}","token":{},"operator":"#, operation.kind(), operation.token)?;
    match operation.value {
        OperationValue::Binary { operator, .. } => write!(out, "\"{operator}\"")?,
        OperationValue::Unary { operator, .. } => write!(out, "\"{operator}\"")?,
        _ => write!(out, "null")?,
    }
    write!(out, r#","value":"#)?;
    match operation.value {
        // A number, true or false: as JSON writes them.
        OperationValue::Const { value, .. } => write!(out, "{value}")?,
        _ => write!(out, "null")?,
    }
    write!(out, r#","result":"#)?;
    optional(out, operation.result())?;
    write!(out, r#","callee":"#)?;
    optional(out, operation.callee())?;
    write!(out, r#","operands":"#)?;
    list(out, operation.operands(), variable)?;
    write!(out, r#","labels":"#)?;
    list(out, operation.labels(), |out, label| number(out, label.0))?;
    write!(out, r#","added":{}}}"#, operation.is_added())
}

fn optional<W: Write>(out: &mut W, value: Option<Variable>) -> io::Result<()> {
    match value {
        Some(value) => variable(out, value),
        None => write!(out, "null"),
    }
}

fn variable<W: Write>(out: &mut W, variable: Variable) -> io::Result<()> {
    write!(out, r#"[{},"{}"]"#, variable.name.0, variable.ty)
}

fn number<W: Write>(out: &mut W, number: usize) -> io::Result<()> {
    write!(out, "{number}")
}

fn list<W: Write, T>(
    out: &mut W,
    items: impl Iterator<Item = T>,
    each: impl Fn(&mut W, T) -> io::Result<()>,
) -> io::Result<()> {
    write!(out, "[")?;
    for (i, item) in items.enumerate() {
        if i > 0 {
            write!(out, ",")?;
        }
        each(out, item)?;
    }
    write!(out, "]")
}

fn string(out: &mut impl Write, bytes: &[u8]) -> io::Result<()> {
    write!(out, "\"")?;
    for &byte in bytes {
        match byte {
            b'"' | b'\\' => out.write_all(&[b'\\', byte])?,
            b' '..=b'~' => out.write_all(&[byte])?,
            _ => write!(out, "\\u{byte:04x}")?,
        }
    }
    write!(out, "\"")
}

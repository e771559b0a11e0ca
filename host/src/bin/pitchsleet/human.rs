//! An answer for a person.
use std::io::{self, Write};

use pitchsleet::{Block, Edges, Printable, Refusal, RefusalKind, TokenValue, Tokens, Unit, Warning};

use crate::listing;
use crate::notes::Note;
use crate::source::{Excerpt, Source, Span};
use crate::style::Style;

pub fn tokens(out: &mut impl Write, style: Style, source: &Source<'_>, tokens: &Tokens<'_, '_>) -> io::Result<()> {
    for token in tokens {
        let position = source.lines.position(token.place).to_string();
        match token.value {
            value if value.identifier().is_some() => writeln!(out, "{position:<9} {:<11} {token}", value.kind())?,
            TokenValue::Integer(number) => writeln!(out, "{position:<9} {:<11} {number}", token.value.kind())?,
            other => writeln!(out, "{position:<9} {}", other.kind())?,
        }
    }
    accepted(out, style, source, &summary_of_tokens(tokens))
}

pub fn unit(out: &mut impl Write, style: Style, source: &Source<'_>, unit: &Unit<'_, '_>) -> io::Result<()> {
    for function in unit.functions() {
        writeln!(out, "{}", listing::header(unit, &function))?;
        for block in function.blocks() {
            writeln!(out, "  {}{}", listing::block_name(unit, &block), edges(&block))?;
            for operation in block.operations() {
                writeln!(out, "    {}", listing::operation(unit, &operation))?;
            }
        }
        writeln!(out)?;
    }
    accepted(out, style, source, &summary(unit))
}

fn accepted(out: &mut impl Write, style: Style, source: &Source<'_>, summary: &str) -> io::Result<()> {
    writeln!(out, "{}: {}: {summary}", style.place(&source.name), style.accepted("accepted"))
}

fn summary_of_tokens(tokens: &Tokens<'_, '_>) -> String {
    format!("{}, {}", counted(tokens.len(), "token"), counted(tokens.names().len(), "name"))
}

/// How much an accepted text has: `4 functions, 10 blocks, 34 operations`.
pub fn summary(unit: &Unit<'_, '_>) -> String {
    let blocks = || unit.functions().flat_map(|function| function.blocks());
    let operations = blocks().map(|block| block.operations().len()).sum();
    let functions = counted(unit.function_count(), "function");
    format!("{functions}, {}, {}", counted(blocks().count(), "block"), counted(operations, "operation"))
}

/// What stands behind a block's name: `: from 0, 2; to 1`.
fn edges(block: &Block<'_, '_>) -> String {
    let listed = |word: &str, edges: Edges<'_>| {
        let numbers: Vec<String> = edges.iter().map(|number| number.to_string()).collect();
        (!numbers.is_empty()).then(|| format!("{word} {}", numbers.join(", ")))
    };
    let dead = block.is_dead().then(|| "dead".to_owned());
    let parts = [dead, listed("from", block.predecessors()), listed("to", block.successors())];
    let parts: Vec<String> = parts.into_iter().flatten().collect();
    if parts.is_empty() { String::new() } else { format!(": {}", parts.join("; ")) }
}

pub fn counted(count: usize, thing: &str) -> String {
    match count {
        1 => format!("1 {thing}"),
        _ => format!("{count} {thing}s"),
    }
}

pub fn refused(
    out: &mut impl Write,
    style: Style,
    source: &Source<'_>,
    refusal: &Refusal,
    notes: &[Note],
) -> io::Result<()> {
    // Without a place no line would tell more; and the first byte isn't the one that is above 127.
    let (place, shows_line) = match refusal.kind() {
        RefusalKind::NotAscii => (source.at(0), false),
        kind if kind.has_place() => (source.at(refusal.place()), true),
        _ => (source.name.clone(), false),
    };
    let number = style.refused(&format!("refused {}", refusal.number()));
    writeln!(out, "{}: {number}: {}", style.place(&place), message(refusal))?;
    if shows_line {
        excerpt(out, source, Span::byte(refusal.place()), |caret| style.refused(caret))?;
    }
    for Note { words, span } in notes {
        match span {
            None => writeln!(out, " {} {words}", style.note("note:"))?,
            Some(span) => {
                writeln!(out, "{}: {} {words}", style.place(&source.at(span.place)), style.note("note:"))?;
                excerpt(out, source, *span, |caret| style.note(caret))?;
            }
        }
    }
    Ok(())
}

/// A refusal's message as one line, fit for a terminal.
pub fn message(refusal: &Refusal) -> Printable<'_> {
    let message = refusal.message();
    Printable(message.strip_suffix(b"\n").unwrap_or(message))
}

pub fn warnings(out: &mut impl Write, style: Style, source: &Source<'_>, warnings: &[Warning<'_>]) -> io::Result<()> {
    for warning in warnings {
        let (place, kind) = (style.place(&source.at(warning.place)), warning.kind.word());
        writeln!(out, "{place}: {} {warning} [{kind}]", style.warning("warning:"))?;
        let span = Span { place: warning.place, length: warning.spelling.len() };
        excerpt(out, source, span, |caret| style.warning(caret))?;
    }
    Ok(())
}

/// The line, beside its number, and under it a caret at the place and tildes as far as more is meant.
fn excerpt(out: &mut impl Write, source: &Source<'_>, span: Span, mark: impl Fn(&str) -> String) -> io::Result<()> {
    let Excerpt { line, left, width } = source.excerpt(span);
    let number = source.lines.position(span.place).line.to_string();
    let (margin, gap) = (" ".repeat(number.len()), " ".repeat(left));
    let width = if span.length > 1 { width } else { 1 };
    writeln!(out, " {number} | {line}")?;
    writeln!(out, " {margin} | {gap}{}", mark(&format!("^{}", "~".repeat(width - 1))))
}

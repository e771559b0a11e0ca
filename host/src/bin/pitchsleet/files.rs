//! Texts in files, read or checked one after the other.
use std::ffi::OsString;
use std::io::{self, Write};

use pitchsleet::{Reader, Refusal, Warning};

use crate::args::{Form, Options};
use crate::failure::Failure;
use crate::notes::{Note, Refused};
use crate::page::Page;
use crate::source::Source;
use crate::style::Style;
use crate::{ACCEPTED, COULD_NOT_RUN, REFUSED, dot, html, human, input, json, notes, page, say};

pub fn read(names: &[OsString], options: Options, output: &mut impl Write, status: &mut u8) -> Result<(), Failure> {
    let style = Style::of(options.color, &io::stdout());
    each_text(names, output, status, |source, output, status| {
        let mut reader = Reader::new();
        let answer = reader.read(source.text);
        raise(status, &answer, &[], options);
        match (options.form, &answer) {
            (Form::Json, answer) => json::write_read(output, asked(source), answer)?,
            (_, Ok(_)) if options.quiet => {}
            (_, Ok(tokens)) => human::tokens(output, style, source, tokens)?,
            (_, Err(refusal)) => human::refused(output, style, source, refusal, &notes_on(source, refusal))?,
        }
        Ok(())
    })
}

pub fn check(names: &[OsString], options: Options, output: &mut impl Write, status: &mut u8) -> Result<(), Failure> {
    let style = Style::of(options.color, &io::stdout());
    let mut files = Vec::new();
    each_text(names, output, status, |source, output, status| {
        let mut reader = Reader::new();
        let answer = reader.check(source.text);
        let warnings = answer.as_ref().map(|unit| unit.warnings()).unwrap_or_default();
        raise(status, &answer, &warnings, options);
        match (options.form, &answer) {
            (Form::Json, answer) => json::write_check(output, asked(source), answer)?,
            (Form::Html, Ok(unit)) => files.push(html::accepted(source, unit, &warnings)),
            (Form::Html, Err(refusal)) => files.push(html::refused(source, refusal, &notes_on(source, refusal))),
            (Form::Dot, Ok(unit)) => dot::write(output, unit)?,
            (Form::Dot, Err(refusal)) => {
                // What reads the output is Graphviz, and a refusal is nothing for it. Where standard error is closed,
                // the exit status alone must say it.
                output.flush()?;
                let style = Style::of(options.color, &io::stderr());
                let _ = human::refused(&mut io::stderr().lock(), style, source, refusal, &notes_on(source, refusal));
            }
            (Form::Person, Ok(_)) if options.quiet => {}
            (Form::Person, Ok(unit)) => human::unit(output, style, source, unit)?,
            (Form::Person, Err(refusal)) => human::refused(output, style, source, refusal, &notes_on(source, refusal))?,
        }
        warn(output, options, source, &warnings)
    })?;
    match files.is_empty() {
        true => Ok(()),
        false => Ok(page::write(output, &Page { files })?),
    }
}

/// What is done with each text; one that can't be read is named, and the others are answered all the same.
fn each_text<W: Write>(
    names: &[OsString],
    output: &mut W,
    status: &mut u8,
    mut answer: impl FnMut(&Source<'_>, &mut W, &mut u8) -> Result<(), Failure>,
) -> Result<(), Failure> {
    for name in names {
        match input::text_of(name) {
            Ok(text) => answer(&Source::new(name, &text), output, status)?,
            Err(why) => {
                output.flush()?;
                say(&why);
                *status = COULD_NOT_RUN;
            }
        }
    }
    Ok(())
}

pub fn asked<'a>(source: &'a Source<'_>) -> json::Asked<'a> {
    json::Asked { file: Some(source.file), text: source.text }
}

/// The status is that of the worst answer.
pub fn raise<T>(status: &mut u8, answer: &Result<T, Refusal>, warnings: &[Warning<'_>], options: Options) {
    let is_fine = answer.is_ok() && (warnings.is_empty() || !options.deny_warnings);
    *status = (*status).max(if is_fine { ACCEPTED } else { REFUSED });
}

fn notes_on(source: &Source<'_>, refusal: &Refusal) -> Vec<Note> {
    notes::of(refusal, source.text, &Refused::Text)
}

/// Warnings for a person, on standard error, behind what was written so far.
pub fn warn(
    output: &mut impl Write,
    options: Options,
    source: &Source<'_>,
    warnings: &[Warning<'_>],
) -> Result<(), Failure> {
    if warnings.is_empty() || matches!(options.form, Form::Json | Form::Html) {
        return Ok(());
    }
    output.flush()?;
    // Where standard error is closed, nobody wants them.
    let _ = human::warnings(&mut io::stderr().lock(), Style::of(options.color, &io::stderr()), source, warnings);
    Ok(())
}

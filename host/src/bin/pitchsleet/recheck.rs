//! A new function in the place of one of an accepted text.
use std::ffi::OsStr;
use std::io::{self, Write};

use pitchsleet::{Headers, Reader, Refusal};

use crate::args::{Form, Options, shown};
use crate::failure::Failure;
use crate::notes::{Refused, Replaced};
use crate::source::Source;
use crate::style::Style;
use crate::{REFUSED, files, human, input, json, listing, notes};

pub fn answer(
    old_file: &OsStr,
    function: &OsStr,
    new_file: &OsStr,
    options: Options,
    output: &mut impl Write,
    status: &mut u8,
) -> Result<(), Failure> {
    let (old, new) = (input::text_of(old_file)?, input::text_of(new_file)?);
    let (old, new) = (Source::new(old_file, &old), Source::new(new_file, &new));
    let style = Style::of(options.color, &io::stdout());
    let mut reader = Reader::new();
    let unit = match reader.check(old.text) {
        Ok(unit) => unit,
        Err(refusal) => {
            *status = REFUSED;
            return Ok(old_refused(output, style, &old, options.form, &refusal)?);
        }
    };
    let headers = unit.headers();
    let number =
        number_of(&headers, function).ok_or_else(|| format!("{} has no function {}", old.name, shown(function)))?;
    let header = unit.function(number).map(|function| listing::header(&unit, &function));
    let answer = reader.recheck(&headers, number, new.text);
    let warnings = answer.as_ref().map(|unit| unit.warnings()).unwrap_or_default();
    files::raise(status, &answer, &warnings, options);
    match (options.form, &answer) {
        (Form::Json, answer) => json::write_check(output, files::asked(&new), answer)?,
        (_, Ok(_)) if options.quiet => {}
        (_, Ok(unit)) => human::unit(output, style, &new, unit)?,
        (_, Err(refusal)) => {
            let refused = Refused::New(Replaced { headers: &headers, number, header });
            human::refused(output, style, &new, refusal, &notes::of(refusal, new.text, &refused))?;
        }
    }
    files::warn(output, options, &new, &warnings)
}

fn old_refused(out: &mut impl Write, style: Style, old: &Source<'_>, form: Form, refusal: &Refusal) -> io::Result<()> {
    match form {
        Form::Json => json::write_old_refused(out, files::asked(old), refusal),
        _ => human::refused(out, style, old, refusal, &notes::of(refusal, old.text, &Refused::Old)),
    }
}

/// The number of the function that a word names, by its number or by its name with or without the sigil. Digits are no
/// name, and more of them than a number may have are a number that no function has.
fn number_of(headers: &Headers, word: &OsStr) -> Option<usize> {
    let word = word.to_str()?;
    match word.bytes().all(|byte| byte.is_ascii_digit()) && !word.is_empty() {
        true => Some(word.parse().unwrap_or(usize::MAX)),
        false => headers.position(word).or_else(|| headers.position(&format!("@{word}"))),
    }
}

//! Many texts on one input: for each its length in decimal, a newline, and that many bytes. Where a function is
//! rechecked, the old text in this form, the function's number in decimal and a newline, and the new text in this form.
use std::io::{self, BufRead, BufReader, Read, Write};

use pitchsleet::Reader;

use crate::args::Command;
use crate::failure::Failure;
use crate::input::KEPT;
use crate::json;

/// The digits of the longest length, 18446744073709551615, and the newline.
const DECIMAL_LINE: u64 = 21;

/// What is asked at a time.
struct Asked {
    text: Vec<u8>,
    /// Of recheck alone: the old text, and the number of the function that the text replaces.
    old: Vec<u8>,
    number: u64,
}

/// Answers until the input ends. What is written goes out before the next wait for input, so that another program may ask
/// text by text and wait for each answer.
pub fn answer(command: Command, input: impl Read, output: &mut impl Write) -> Result<(), Failure> {
    let mut input = BufReader::new(input);
    let mut reader = Reader::new();
    let mut asked = Asked { text: Vec::with_capacity(KEPT), old: Vec::new(), number: 0 };
    for number in 1_u64.. {
        if input.buffer().is_empty() {
            output.flush()?;
        }
        match next(command, &mut input, &mut asked) {
            Ok(true) => {}
            Ok(false) => break,
            Err(why) => {
                output.flush()?;
                return Err(Failure::Said(format!("standard input, text {number}: {why}")));
            }
        }
        match command {
            Command::Read => json::write_read(output, unnamed(&asked.text), &reader.read(&asked.text))?,
            Command::Check => json::write_check(output, unnamed(&asked.text), &reader.check(&asked.text))?,
            Command::Recheck => recheck(&mut reader, &asked, output)?,
        }
    }
    Ok(())
}

fn recheck(reader: &mut Reader, asked: &Asked, output: &mut impl Write) -> io::Result<()> {
    match reader.check(&asked.old).map(|unit| unit.headers()) {
        Ok(headers) => {
            let number = usize::try_from(asked.number).unwrap_or(usize::MAX);
            json::write_check(output, unnamed(&asked.text), &reader.recheck(&headers, number, &asked.text))
        }
        Err(refusal) => json::write_old_refused(output, unnamed(&asked.old), &refusal),
    }
}

fn unnamed(text: &[u8]) -> json::Asked<'_> {
    json::Asked { file: None, text }
}

/// Fills in what is asked next; false where the input ends before it.
fn next(command: Command, input: &mut impl BufRead, asked: &mut Asked) -> Result<bool, String> {
    if command == Command::Recheck {
        if !next_text(input, &mut asked.old).map_err(|why| format!("the old one: {why}"))? {
            return Ok(false);
        }
        asked.number = next_decimal(input, NO_NUMBER)?.ok_or(NO_NUMBER)?;
    }
    match (next_text(input, &mut asked.text)?, command) {
        (false, Command::Recheck) => Err(NO_LENGTH.to_owned()),
        (is_there, _) => Ok(is_there),
    }
}

const NO_LENGTH: &str = "it has no length: a decimal number and a newline must come before it";
const NO_NUMBER: &str = "it has no function's number: a decimal number and a newline must come behind the old one";

/// Fills in the next text, as far as it is kept; false where the input ends before it.
fn next_text(input: &mut impl BufRead, text: &mut Vec<u8>) -> Result<bool, String> {
    let Some(length) = next_decimal(input, NO_LENGTH)? else {
        return Ok(false);
    };
    let kept = length.min(KEPT as u64);
    text.clear();
    let found = input.take(kept).read_to_end(text).map_err(unreadable)? as u64;
    let passed = io::copy(&mut input.take(length - kept), &mut io::sink()).map_err(unreadable)?;
    match found + passed {
        found if found < length => Err(format!("the input ends after {found} of its {length} bytes")),
        _ => Ok(true),
    }
}

/// The number of the next line; none where the input ends before it. Where the line is no number, what lacks is said.
fn next_decimal(input: &mut impl BufRead, lacks: &str) -> Result<Option<u64>, String> {
    let mut line = Vec::new();
    input.take(DECIMAL_LINE).read_until(b'\n', &mut line).map_err(unreadable)?;
    if line.is_empty() {
        return Ok(None);
    }
    let number = line.strip_suffix(b"\n").and_then(decimal).ok_or(lacks)?;
    Ok(Some(number))
}

fn decimal(digits: &[u8]) -> Option<u64> {
    let all_digits = digits.iter().all(u8::is_ascii_digit);
    let digits = str::from_utf8(digits).ok().filter(|_| all_digits)?;
    digits.parse().ok()
}

fn unreadable(why: io::Error) -> String {
    format!("it can't be read: {why}")
}

//! The command-line tool: `pitchsleet read FILE..`, `pitchsleet check FILE..`, `pitchsleet recheck OLD FUNCTION NEW`, and
//! the same as JSON for other programs.
#![forbid(unsafe_code)]

mod args;
mod dot;
mod failure;
mod files;
mod html;
mod human;
mod input;
mod json;
mod listing;
mod markup;
mod notes;
mod page;
mod picture;
mod recheck;
mod source;
mod stream;
mod style;

use std::ffi::OsString;
use std::io::{self, BufWriter, Write};
use std::process::ExitCode;

use args::Request;
use failure::Failure;

const ACCEPTED: u8 = 0;
const REFUSED: u8 = 1;
const COULD_NOT_RUN: u8 = 2;

fn main() -> ExitCode {
    let words: Vec<OsString> = std::env::args_os().skip(1).collect();
    let mut status = ACCEPTED;
    match run(words, &mut status) {
        // Whoever closed the output wanted no more: the status is that of what was answered.
        Ok(()) | Err(Failure::OutputClosed) => {}
        Err(Failure::Said(line)) => {
            say(&line);
            status = COULD_NOT_RUN;
        }
    }
    ExitCode::from(status)
}

/// One line on standard error. Where that is closed too, the exit status alone must say it.
fn say(line: &str) {
    let _ = writeln!(io::stderr(), "pitchsleet: {line}");
}

/// Does what is asked, and raises the status as answers come.
fn run(words: Vec<OsString>, status: &mut u8) -> Result<(), Failure> {
    let request = args::parse(words).map_err(|why| format!("{why} (pitchsleet help says more)"))?;
    let mut output = BufWriter::new(io::stdout().lock());
    match request {
        Request::Help => write!(output, "{}", args::HELP)?,
        Request::Version => writeln!(output, "pitchsleet {}", env!("CARGO_PKG_VERSION"))?,
        Request::Stream(command) => stream::answer(command, io::stdin().lock(), &mut output)?,
        Request::Read(names, options) => files::read(&names, options, &mut output, status)?,
        Request::Check(names, options) => files::check(&names, options, &mut output, status)?,
        Request::Recheck { old, function, new, options } => {
            recheck::answer(&old, &function, &new, options, &mut output, status)?;
        }
    }
    output.flush()?;
    Ok(())
}

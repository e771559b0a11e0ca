//! Runs the Rust original, unchanged, over many texts: one line of JSON for each (`answer` says what stands in it).
//!
//! `oracle [--read]`          texts on standard input: for each its length in decimal, a newline, then that many bytes
//! `oracle [--read] FILE..`   each file is a text
//! `oracle --time [FILE..]`   the same texts: for each the nanoseconds that it takes (`time` says how they are counted)
//!
//! With `--read` a text is lexed and no more.
mod answer;
mod json;
mod time;

use std::fs;
use std::io::{self, BufRead, BufReader, BufWriter, Read, Write};
use std::thread;

use answer::{Depth, answer};

/// The Rust's parser calls itself once for each label in a row: a text of labels needs room.
const STACK: usize = 256 << 20;

fn main() {
    let done = thread::Builder::new().stack_size(STACK).spawn(run);
    let run = done.expect("a thread").join();
    run.expect("run doesn't panic").expect("input and output");
}

fn run() -> io::Result<()> {
    // The panics that texts cause are answers. They say nothing beside.
    std::panic::set_hook(Box::new(|_| {}));
    let args: Vec<String> = std::env::args().skip(1).collect();
    let (each, files): (fn(&[u8]) -> String, _) = match args.first().map(String::as_str) {
        Some("--time") => (time::line, &args[1..]),
        Some("--read") => (|text| answer(text, Depth::Read), &args[1..]),
        _ => (|text| answer(text, Depth::Check), &args[..]),
    };
    if files.is_empty() {
        answer_stream(each)
    } else {
        answer_files(files, each)
    }
}

fn answer_files(files: &[String], each: fn(&[u8]) -> String) -> io::Result<()> {
    for file in files {
        println!("{}", each(&fs::read(file)?));
    }
    Ok(())
}

/// Answers until the input ends. What is written goes out before the next wait for input, so that a caller may ask in
/// batches of any size.
fn answer_stream(each: fn(&[u8]) -> String) -> io::Result<()> {
    let mut input = BufReader::new(io::stdin().lock());
    let mut output = BufWriter::new(io::stdout().lock());
    let mut length = String::new();
    loop {
        if input.buffer().is_empty() {
            output.flush()?;
        }
        length.clear();
        if input.read_line(&mut length)? == 0 {
            return output.flush();
        }
        let length = length.trim().parse().map_err(io::Error::other)?;
        let mut text = vec![0; length];
        input.read_exact(&mut text)?;
        writeln!(output, "{}", each(&text))?;
    }
}

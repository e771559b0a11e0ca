//! Long runs of the comparison, outside the tests:
//!
//! ```text
//! cargo run --release --example fuzz -- check SEED COUNT          compares so many generated texts, checked
//! cargo run --release --example fuzz -- read SEED COUNT           the same, read and no more
//! cargo run --release --example fuzz -- recheck SEED COUNT        so many edits, and as many tables of another hand
//! cargo run --release --example fuzz -- check --texts SEED COUNT  writes them, as a stream that other programs read
//! ```
//!
//! The texts and the edits of a seed are the same each time, and those of the tests are its first ones. Exit status: 0 none
//! differs, 1 one does, 2 bad usage, or there is no Rust to compare with.
#[path = "../tests/support/mod.rs"]
mod support;

use std::io::{self, Write};
use std::ops::Range;
use std::process::ExitCode;

use support::compare::Comparison;
use support::compare_edits::EditComparison;
use support::oracle::Depth;
use support::{edits, texts};

/// How many texts go by between two lines of progress.
const STRIDE: u64 = 50_000;

fn main() -> ExitCode {
    let words: Vec<String> = std::env::args().skip(1).collect();
    let words: Vec<&str> = words.iter().map(String::as_str).collect();
    run(&words).unwrap_or_else(|| {
        eprintln!("fuzz: read or check, perhaps --texts, or recheck; then SEED COUNT, two numbers");
        ExitCode::from(2)
    })
}

fn run(words: &[&str]) -> Option<ExitCode> {
    let (command, words) = words.split_first()?;
    if let ("recheck", [seed, count]) = (*command, words) {
        return Some(compare_edits(seed.parse().ok()?, count.parse().ok()?));
    }
    let depth = match *command {
        "read" => Depth::Read,
        "check" => Depth::Check,
        _ => return None,
    };
    match words {
        ["--texts", seed, count] => Some(write_texts(depth, seed.parse().ok()?, count.parse().ok()?)),
        [seed, count] => Some(compare(depth, seed.parse().ok()?, count.parse().ok()?)),
        _ => None,
    }
}

fn write_texts(depth: Depth, seed: u64, count: u64) -> ExitCode {
    let mut output = io::stdout().lock();
    let written = texts::generated(depth, seed, 0..count).try_for_each(|text| {
        writeln!(output, "{}", text.len())?;
        output.write_all(&text)
    });
    if written.is_ok() { ExitCode::SUCCESS } else { ExitCode::from(2) }
}

fn compare(depth: Depth, seed: u64, count: u64) -> ExitCode {
    let mut comparison = Comparison::new(depth);
    for numbers in strides(count) {
        comparison.all(texts::generated(depth, seed, numbers));
        eprintln!("fuzz: seed {seed}: {}", comparison.report);
    }
    let report = comparison.report;
    println!("{depth:?}, seed {seed}, {count} texts: {report}");
    status(report.is_clean(), report.held_to_rust())
}

fn compare_edits(seed: u64, count: u64) -> ExitCode {
    let mut comparison = EditComparison::new();
    for numbers in strides(count) {
        comparison.all(edits::generated(seed, numbers.clone()));
        comparison.by_other_tables(edits::with_other_tables(seed, numbers));
        eprintln!("fuzz: seed {seed}: {}", comparison.report);
    }
    let report = comparison.report;
    println!("recheck, seed {seed}, {count} edits: {report}");
    status(report.is_clean(), report.held_to_rust())
}

fn status(is_clean: bool, held_to_rust: usize) -> ExitCode {
    match (is_clean, held_to_rust) {
        (false, _) => ExitCode::from(1),
        (true, 0) => ExitCode::from(2),
        (true, _) => ExitCode::SUCCESS,
    }
}

fn strides(count: u64) -> impl Iterator<Item = Range<u64>> {
    let starts = (0..count).step_by(STRIDE as usize);
    starts.map(move |start| start..count.min(start + STRIDE))
}

//! This crate against the model of document 01, and against the Rust original, text by text.
//!
//! `PITCHSLEET_TEXTS` says how many texts are generated, `PITCHSLEET_SEED` from which seed. Both are printed, with what came
//! of them. Where the Rust files are not to be had (oracle/README.md) that is said in one line, and the model alone is
//! compared with.
mod support;

use std::io::Write;

use support::compare::{Comparison, Report};
use support::oracle::Depth;
use support::{edges, fixed, texts};

const TEXTS_TO_READ: u64 = 40_000;
const TEXTS_TO_CHECK: u64 = 25_000;
const SEED: u64 = 1;

fn from_environment(name: &str, default: u64) -> u64 {
    match std::env::var(name) {
        Ok(value) => value.parse().unwrap_or_else(|_| panic!("{name} is a number")),
        Err(_) => default,
    }
}

fn compare(depth: Depth, what: &str, texts: impl IntoIterator<Item = Vec<u8>>) -> Report {
    let mut comparison = Comparison::new(depth);
    comparison.all(texts);
    let report = comparison.report;
    // Not by `println!`, whose output a passing test keeps to itself.
    writeln!(std::io::stderr(), "comparison: {depth:?}, {what}: {report}").expect("standard error");
    assert!(report.is_clean(), "{what}: {report}");
    report
}

/// A run of the usual size reaches every answer that a text can have.
fn generated(depth: Depth, usual: u64, numbers: impl IntoIterator<Item = u32>) {
    let (seed, count) = (from_environment("PITCHSLEET_SEED", SEED), from_environment("PITCHSLEET_TEXTS", usual));
    let report = compare(depth, &format!("generated, seed {seed}"), texts::generated(depth, seed, 0..count));
    for number in numbers {
        assert!(count < usual || report.answered(number) > 0, "no text is answered with {number}");
    }
}

// ---- read --------------------------------------------------------------------------------------------------------------

#[test]
fn read_generated_texts() {
    generated(Depth::Read, TEXTS_TO_READ, [0, 1, 2, 3, 4, 31, 32, 33, 34, 43]);
}

#[test]
fn read_every_short_text() {
    compare(Depth::Read, "short, of all kinds", edges::every_short(b"/*\n#@a-0 ", 4));
    compare(Depth::Read, "short, comments", edges::every_short(b"/*\nx", 6));
    compare(Depth::Read, "short, numbers and names", edges::every_short(b"-1a.;", 5));
}

#[test]
fn read_edges_of_the_rules() {
    compare(Depth::Read, "edges", edges::edges());
}

#[test]
fn read_limits() {
    let report = compare(Depth::Read, "limits", edges::limits());
    for number in [31, 32, 33, 34, 43] {
        assert!(report.answered(number) > 0, "no text is answered with {number}");
    }
}

// ---- check -------------------------------------------------------------------------------------------------------------

#[test]
fn check_generated_texts() {
    generated(Depth::Check, TEXTS_TO_CHECK, (0..=22).chain(31..=38).chain([43]));
}

#[test]
fn check_every_short_program() {
    compare(Depth::Check, "headers", edges::headers());
    compare(Depth::Check, "labels, blocks and edges", edges::blocks());
    compare(Depth::Check, "orders of blocks", edges::orders());
    compare(Depth::Check, "statements", edges::statements());
}

#[test]
fn check_edges_of_the_rules() {
    compare(Depth::Check, "edges", edges::edges());
}

#[test]
fn check_limits() {
    let report = compare(Depth::Check, "limits", edges::limits().into_iter().chain(edges::limits_of_check()));
    for number in 31..=38 {
        assert!(report.answered(number) > 0, "no text is answered with {number}");
    }
}

/// The texts of the fixed cases: enough of them, and each number several times.
#[test]
fn check_fixed_texts() {
    let texts = fixed::all();
    assert!(texts.len() >= 500);
    let report = compare(Depth::Check, "fixed", texts.into_iter().map(|(_, text)| text));
    for number in (1..=22).chain([43]) {
        assert!(report.answered(number) >= 3, "hardly a text is answered with {number}");
    }
}

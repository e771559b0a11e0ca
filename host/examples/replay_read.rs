//! Writes the fixed cases of read, with the whole answers, for the program that replays them without any Rust,
//! crates/replay_read:
//!
//! ```text
//! cargo run --release --example replay_read -- FOLDER
//! ```
//!
//! The cases go to the file `stdin` of FOLDER, and what the program that replays them must then write to its file `stdout`.
//! The same texts in the same order come out each time. Exit status: 0 written, 1 the model and the Rust differ, 2 bad
//! usage, no Rust to hold the model to, or a file that can't be written.
//!
//! # Where the expected answers come from
//!
//! From the model of document 01 in tests/support/model, which has no code in common with the Rust or with the proved
//! crates; the archive is never asked. The Rust original is asked every text, also one that a limit refuses. It knows no
//! numbers, no places and no limits, and drops a number out of range. So the model that does the same must say what the Rust
//! says: the message's bytes, and by them the number; each token's kind, value and line; each name's spelling. The spelling
//! of each token and each name must stand at the place that the model gives it. What the limits do, and the answers 30 and
//! 43, rests on the model alone.
//!
//! # The file
//!
//! As tests/support/case_file.rs says. It has two lists of cases: with slices long enough, and with a short one. A case is
//!
//! - its text, a list of bytes;
//! - how long the slices are that `read` is lent: tokens and names, in cells, and message, in bytes;
//! - the answer: number, line, place, count of tokens, count of names;
//! - the cells of tokens, a list of numbers; the cells of names, a list of numbers; the message, a list of bytes.
#[path = "../tests/support/mod.rs"]
mod support;

use std::process::ExitCode;

use support::against_rust::compare_with_rust;
use support::case_file::{self, CaseFile, Held, Lists, spaced};
use support::fixed::{Titled, distinct};
use support::fixed_reads;
use support::model::reading::read_as_rust;
use support::model::{self, BYTES, TOKENS};
use support::oracle::{Depth, Oracle};
use support::records::Cells;
use support::said::Verdict;

/// The program's room for the file, and for a text.
const ROOM: usize = 131_072;
const ROOM_FOR_A_TEXT: usize = 16_400;

const LISTS: Lists = Lists { widest: 16 };

/// How long the slices are that are lent: tokens, names, message.
type Lengths = [usize; 3];

const EXACT: Lengths = [16_384, 2_048, 512];
const LONG: Lengths = [16_400, 2_064, 528];
const SHORT: [Lengths; 11] = [
    [16_383, 2_048, 512],
    [16_384, 2_047, 512],
    [16_384, 2_048, 511],
    [16_383, 2_064, 528],
    [16_400, 2_047, 528],
    [16_400, 2_064, 511],
    [16_383, 2_047, 511],
    [0, 2_048, 512],
    [16_384, 0, 512],
    [16_384, 2_048, 0],
    [0, 0, 0],
];

fn main() -> ExitCode {
    case_file::make("replay_read", Depth::Read, |oracle| {
        let (calls, shorts) = (calls(), shorts());
        let texts = distinct(calls.iter().chain(&shorts).map(|(text, _)| text.clone()).collect());
        let held = vec![("texts", hold_to_rust(oracle, &texts))];
        let mut file = CaseFile::new(ROOM);
        file.list("texts", calls.into_iter().map(case));
        file.comment("with a short slice");
        file.list("calls with a short slice", shorts.into_iter().map(case));
        (file, held)
    })
}

/// The texts to read, with the slices' lengths.
fn calls() -> Vec<(Titled, Lengths)> {
    let exact = [
        ("an empty text", Vec::new()),
        ("a function", b"@f { nop; }".to_vec()),
        ("a refused text", b"\n\n/*".to_vec()),
        ("a text not ASCII", b"\x80".to_vec()),
        ("both limits", fixed_reads::at_both_limits()),
        ("too many tokens", b";".repeat(TOKENS)),
        ("too many bytes", b" ".repeat(BYTES + 1)),
    ];
    let exact = exact.map(|(title, text)| ((format!("slices of their sizes, {title}"), text), EXACT));
    fixed_reads::all().into_iter().map(|text| (text, LONG)).chain(exact).collect()
}

fn shorts() -> Vec<(Titled, Lengths)> {
    let texts = [
        ("an accepted text", b"@f { nop; }".to_vec()),
        ("a refused text", b"\n$".to_vec()),
        ("a text not ASCII", b"\x80".to_vec()),
        ("too many bytes", b" ".repeat(BYTES + 1)),
    ];
    let titled = texts.map(|(title, text)| (format!("a short slice, {title}"), text));
    titled.into_iter().flat_map(|text| SHORT.map(|lengths| (text.clone(), lengths))).collect()
}

fn hold_to_rust(oracle: &mut Oracle, texts: &[Titled]) -> Held {
    let mut held = Held::default();
    let asked: Vec<Vec<u8>> = texts.iter().map(|(_, text)| text.clone()).collect();
    for ((title, text), rust) in texts.iter().zip(oracle.ask(&asked)) {
        held.answered(model::read(text).number());
        held.hold(title, text, compare_with_rust(text, &read_as_rust(text), &rust));
    }
    held
}

fn case(((title, text), lengths): (Titled, Lengths)) -> (String, String) {
    assert!(text.len() <= ROOM_FOR_A_TEXT, "the program has no room for the text: {title}");
    let said = case_file::answer(&lengths, &EXACT, || model::read(&text));
    let cells = Cells::of_read(&said);
    let (Verdict { number, line, place }, counts) = (said.verdict(), cells.counts());
    let lines = [
        LISTS.bytes(&text),
        spaced(&lengths),
        spaced(&[number, line, place, counts.tokens, counts.names]),
        LISTS.records(&cells.tokens, 4),
        LISTS.records(&cells.names, 2),
        LISTS.bytes(said.message()),
    ];
    (title, lines.join("\n"))
}

//! Writes the fixed cases of check and recheck, with the whole answers, for the program that replays them without any Rust,
//! crates/replay_check:
//!
//! ```text
//! cargo run --release --example replay_check -- FOLDER
//! ```
//!
//! The cases go to the file `stdin` of FOLDER, and what the program that replays them must then write to its file `stdout`.
//! The same texts in the same order come out each time. Exit status: 0 written, 1 the model and the Rust differ, 2 bad
//! usage, no Rust to hold the model to, or a file that can't be written.
//!
//! # Where the expected answers come from
//!
//! From the model of document 01 in tests/support/model, which has no code in common with the Rust or with the proved
//! crates; the archive is never asked. On each text that is inside the limits the Rust original is asked too, and must say
//! the same: message, tokens, names, functions, blocks, edges, operations and types. A text that is refused by a limit or
//! for a number out of range, and one in which typing comes to an unreachable block, rests on the model alone; 22 is a panic
//! of the Rust's. A recheck with a table as check wrote it is held to the Rust wherever demand 3 speaks: the new text is put
//! in the old function's place, the model's recheck and its check of that whole text must agree as demand 3 says, and the
//! Rust must say of the whole text what the model does.
//!
//! # The file
//!
//! As tests/support/case_file.rs says. It has three lists of cases: of check with slices long enough, of check with a short
//! one, and of recheck. A case is
//!
//! - of recheck alone: the old text, a list of bytes, whose header table is what `check` writes for it in a slice of 2,897
//!   cells; how many cells of the table are changed, and of each its index and its value; how many cells of the table are
//!   lent; the number of the function;
//! - its text, of recheck the new one, a list of bytes;
//! - how long the slices are that are lent: tokens, names, functions, items, arguments, blocks, predecessors, in cells, and
//!   message, in bytes;
//! - the answer: number, line, place, and the counts of tokens, names, functions, items, arguments, blocks, predecessors;
//! - the cells of the seven slices, in the same order, each a list of numbers; the message, a list of bytes.
#[path = "../tests/support/mod.rs"]
mod support;

use std::process::ExitCode;

use support::against_fresh::{Rechecked, compare_with_fresh};
use support::against_rust::compare_with_rust;
use support::case_file::{self, CaseFile, Held, Lists, spaced};
use support::compare::{is_by_a_limit, is_out_of_range};
use support::fixed::{self, Titled};
use support::model::{self, BYTES, Checked};
use support::oracle::{Depth, Oracle};
use support::rechecks::{self, Recheck};
use support::records::{Cells, SIZES};
use support::said::{Said, Verdict};

/// The program's room for the file.
const ROOM: usize = 524_288;

const LISTS: Lists = Lists { widest: 24 };

/// The sizes of the seven slices in cells, and of the message in bytes.
fn exact() -> [usize; 8] {
    let mut lengths = [512; 8];
    lengths[..7].copy_from_slice(&SIZES);
    lengths
}

/// Slices that are longer than their sizes.
fn long() -> [usize; 8] {
    exact().map(|length| length + 16)
}

/// Slices of which one, or all, are one too short.
fn short() -> Vec<[usize; 8]> {
    let one = |short: usize, lengths: [usize; 8], by: usize| {
        let mut lengths = lengths;
        lengths[short] -= by;
        lengths
    };
    let singly = (0..8).map(|slice| one(slice, exact(), 1));
    let among_long = (0..8).map(|slice| one(slice, long(), 17));
    singly.chain(among_long).chain([exact().map(|length| length - 1), [0; 8]]).collect()
}

/// Widths of a record in each slice, in cells: what repeats does so by whole records.
const WIDTHS: [usize; 7] = [4, 2, 45, 8, 2, 8, 1];

fn main() -> ExitCode {
    case_file::make("replay_check", Depth::Check, |oracle| {
        let (texts, again) = (fixed::all(), rechecks::all());
        let held = vec![("checks", hold_to_rust(oracle, &texts)), ("rechecks", hold_rechecks_to_rust(oracle, &again))];
        let mut file = CaseFile::new(ROOM);
        file.list("texts", calls(texts).into_iter().map(check_case));
        file.comment("with a short slice");
        file.list("calls with a short slice", shorts().into_iter().map(check_case));
        file.comment("of recheck");
        file.list("rechecks", rechecks(again).into_iter().map(recheck_case));
        (file, held)
    })
}

/// The texts to check, with the slices' lengths.
fn calls(texts: Vec<Titled>) -> Vec<(Titled, [usize; 8])> {
    let exact = EXACT.map(|text| ((format!("slices of their sizes, {text}"), text.as_bytes().to_vec()), exact()));
    texts.into_iter().map(|text| (text, long())).chain(exact).collect()
}

fn shorts() -> Vec<(Titled, [usize; 8])> {
    let titled = |text: &[u8]| ("a short slice".to_owned(), text.to_vec());
    SHORT.iter().flat_map(|text| short().into_iter().map(move |lengths| (titled(text), lengths))).collect()
}

/// The rechecks, with the slices' lengths; some with slices of their sizes, and with short ones.
fn rechecks(again: Vec<Recheck>) -> Vec<(Recheck, [usize; 8])> {
    let few = |title: &str| rechecks::few().map(|recheck| Recheck { title: title.to_owned(), ..recheck });
    let exact = few("slices of their sizes").map(|recheck| (recheck, exact()));
    let [first, ..] = few("a short slice");
    let bad = Recheck { title: "a short slice comes before a bad table".to_owned(), number: 1, ..first.clone() };
    let shorts = short().into_iter().map(|lengths| (first.clone(), lengths));
    again.into_iter().map(|recheck| (recheck, long())).chain(exact).chain(shorts).chain([(bad, [0; 8])]).collect()
}

const EXACT: [&str; 3] = ["", "@f { nop; }", "@f { ret x; }"];
const SHORT: [&[u8]; 3] = [b"@f { nop; }", b"@f { ret x; }", b"\x80"];

// ---- the model, held to the Rust ---------------------------------------------------------------------------------------

fn hold_to_rust(oracle: &mut Oracle, texts: &[Titled]) -> Held {
    let mut held = Held::default();
    for (title, text) in texts {
        let checked = model::check(text);
        held.answered(checked.said.number());
        if text.len() <= BYTES && is_owed(&checked) {
            held.hold(title, text, compare(oracle, text, &checked));
        }
    }
    held
}

/// The same of rechecks, wherever demand 3 speaks.
fn hold_rechecks_to_rust(oracle: &mut Oracle, again: &[Recheck]) -> Held {
    let mut held = Held::default();
    for recheck in again {
        held.answered(recheck.answer().said.number());
        let Some(edit) = recheck.edit() else { continue };
        match compare_with_fresh(&edit) {
            Ok(Rechecked { fails: None, edited, fresh, .. }) if is_owed(&fresh) => {
                held.hold(&recheck.title, &edited, compare(oracle, &edited, &fresh));
            }
            Ok(_) => {}
            Err(why) => held.hold(&recheck.title, &recheck.new, Err(why)),
        }
    }
    held
}

/// Whether the Rust has a word in an answer: it knows no limits, and no order of blocks that can't be reached, and it drops a
/// number that is refused here.
fn is_owed(checked: &Checked) -> bool {
    let number = checked.said.number();
    !is_by_a_limit(number) && !is_out_of_range(number) && !checked.order_is_open
}

fn compare(oracle: &mut Oracle, text: &[u8], checked: &Checked) -> Result<(), String> {
    let answers = oracle.ask(&[text.to_vec()]);
    compare_with_rust(text, &checked.said, &answers[0])
}

// ---- the file ----------------------------------------------------------------------------------------------------------

fn check_case(((title, text), lengths): (Titled, [usize; 8])) -> (String, String) {
    (title, case(&text, lengths, || model::check(&text).said))
}

fn recheck_case((again, lengths): (Recheck, [usize; 8])) -> (String, String) {
    let Recheck { title, old, changes, length, number, new } = &again;
    let changed: String = changes.iter().map(|(cell, value)| format!(" {cell} {value}")).collect();
    let lines = [
        LISTS.bytes(old),
        format!("{}{changed}", changes.len()),
        format!("{length} {number}"),
        case(new, lengths, || again.answer().said),
    ];
    (title.clone(), lines.join("\n"))
}

/// A text with the answer to it.
fn case(text: &[u8], lengths: [usize; 8], said: impl FnOnce() -> Said) -> String {
    let said = case_file::answer(&lengths, &exact(), said);
    let cells = Cells::of_check(&said);
    let (Verdict { number, line, place }, counts) = (said.verdict(), cells.counts());
    let answer = [
        number, line, place, counts.tokens, counts.names, counts.functions, counts.items, counts.arguments,
        counts.blocks, counts.predecessors,
    ];
    let mut lines = vec![LISTS.bytes(text), spaced(&lengths), spaced(&answer)];
    lines.extend(cells.slices().into_iter().zip(WIDTHS).map(|(cells, width)| functions_apart(cells, width)));
    lines.push(LISTS.bytes(said.message()));
    lines.join("\n")
}

/// The functions' first cell is their count, and the rows stand behind it. The last row ends with the room of formals that
/// it doesn't have: zeros, as behind it.
fn functions_apart(cells: &[u32], width: usize) -> String {
    match (width, cells) {
        (45, [count, rows @ ..]) => {
            let end = rows.iter().rposition(|&cell| cell != 0).map_or(0, |last| last + 1);
            LISTS.records_behind(*count, &rows[..end], width)
        }
        _ => LISTS.records(cells, width),
    }
}

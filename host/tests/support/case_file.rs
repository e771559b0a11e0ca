//! The files of fixed cases that crates/replay_read and crates/replay_check replay: what examples/replay_read.rs and
//! examples/replay_check.rs share to make them.
//!
//! # The file
//!
//! Decimal numbers, with any other bytes between them; `#` begins a comment that runs to the line's end. Lists of cases,
//! each behind the count of its cases; then the count of all cases, which shows that the file is whole. What a case is, the
//! example says that makes the file.
//!
//! A list of numbers or bytes begins with how many runs it has. A run is TIMES, WIDTH, and WIDTH values, which stand once;
//! where TIMES is above 1, WIDTH steps follow, and the values stand TIMES times, each time larger by the steps than the time
//! before. The values of a list of bytes stand between quotes, each byte as itself or as `\` and two hexadecimal digits. So
//! `1 4096 1 ";" 0` is a list of 4,096 semicolons, and `2 1 1 9 3 2 10 7 5 0` is the list 9 10 7 15 7 20 7.
//!
//! Behind the cells and bytes that a case lists, a slice must hold zeros; after the answer 30 it must hold what it held
//! before the call.
use std::collections::BTreeMap;
use std::fmt::{self, Display, Formatter};
use std::path::Path;
use std::process::ExitCode;
use std::{fs, io};

use pitchsleet::Printable;

use super::oracle::{Depth, Oracle};
use super::said::Said;

/// What an example's `main` does. The one word that it is given is the folder; the cases, with a count of each list that was
/// held to the Rust, are written there unless something differs.
pub fn make(
    maker: &'static str,
    depth: Depth,
    cases: impl FnOnce(&mut Oracle) -> (CaseFile, Vec<(&'static str, Held)>),
) -> ExitCode {
    let words: Vec<String> = std::env::args().skip(1).collect();
    let [folder] = &words[..] else {
        eprintln!("{maker}: FOLDER");
        return ExitCode::from(2);
    };
    let Some(oracle) = &mut Oracle::start(depth) else {
        return ExitCode::from(2);
    };
    let (file, held) = cases(oracle);
    let mut differences = held.iter().flat_map(|(_, held)| &held.differences).peekable();
    if differences.peek().is_some() {
        differences.for_each(|difference| eprintln!("{maker}: the model and the Rust differ: {difference}"));
        return ExitCode::from(1);
    }
    match file.write(maker, Path::new(folder)) {
        Ok(bytes) => {
            println!("{bytes} bytes");
            held.iter().for_each(|(what, held)| println!("{what}: {held}"));
            ExitCode::SUCCESS
        }
        Err(why) => {
            eprintln!("{maker}: {folder} can't be written: {why}");
            ExitCode::from(2)
        }
    }
}

// ---- the model, held to the Rust ---------------------------------------------------------------------------------------

/// How many answers of the model there are of each number, and how many of them were held to the Rust.
#[derive(Default)]
pub struct Held {
    held: usize,
    differences: Vec<String>,
    numbers: BTreeMap<u32, usize>,
}

impl Held {
    pub fn answered(&mut self, number: u32) {
        *self.numbers.entry(number).or_default() += 1;
    }

    pub fn hold(&mut self, title: &str, text: &[u8], result: Result<(), String>) {
        match result {
            Ok(()) => self.held += 1,
            Err(why) => self.differences.push(format!("{title}: {}\n  {why}", Printable(text))),
        }
    }
}

impl Display for Held {
    fn fmt(&self, f: &mut Formatter<'_>) -> fmt::Result {
        write!(f, "{}, {} held to the Rust; answers", self.numbers.values().sum::<usize>(), self.held)?;
        self.numbers.iter().try_for_each(|(number, count)| write!(f, " {number}: {count}"))
    }
}

// ---- the file ----------------------------------------------------------------------------------------------------------

pub struct CaseFile {
    /// The program's room for the file, in bytes. It must not be full: the program couldn't tell where the file ends.
    room: usize,
    lines: Vec<String>,
    cases: usize,
    /// What the program must write.
    expected: String,
}

impl CaseFile {
    pub fn new(room: usize) -> Self {
        Self { room, lines: Vec::new(), cases: 0, expected: String::new() }
    }

    pub fn comment(&mut self, words: &str) {
        self.lines.push(format!("# {words}"));
    }

    /// A list of cases with their titles, of which a comment has the first line; and what the program calls them.
    pub fn list(&mut self, what: &str, cases: impl ExactSizeIterator<Item = (String, String)>) {
        let count = cases.len();
        self.lines.push(count.to_string());
        for (title, case) in cases {
            self.comment(&format!("{}: {}", self.cases, title.lines().next().unwrap_or_default()));
            self.lines.push(case);
            self.cases += 1;
        }
        self.expected.push_str(&format!("{count} {what}: {count} as expected\n"));
    }

    /// Writes the file, and answers its length.
    fn write(mut self, maker: &str, folder: &Path) -> io::Result<usize> {
        self.comment("the end");
        let head = format!("# Made by host/examples/{maker}.rs, which says what stands here.");
        let file = format!("{head}\n{}\n{}\n", self.lines.join("\n"), self.cases);
        if file.len() >= self.room {
            return Err(io::Error::other(format!("{} bytes are more than the program has room for", file.len())));
        }
        fs::write(folder.join("stdin"), &file)?;
        fs::write(folder.join("stdout"), self.expected)?;
        Ok(file.len())
    }
}

/// The answer to a call: 30 where a slice that is lent is shorter than its size.
pub fn answer(lengths: &[usize], sizes: &[usize], said: impl FnOnce() -> Said) -> Said {
    let is_short = lengths.iter().zip(sizes).any(|(have, size)| have < size);
    if is_short { Said::Refused { number: 30, line: 0, place: 0, message: Vec::new() } } else { said() }
}

pub fn spaced<T: ToString>(values: &[T]) -> String {
    values.iter().map(ToString::to_string).collect::<Vec<_>>().join(" ")
}

// ---- lists -------------------------------------------------------------------------------------------------------------

/// How lists are written: a run that repeats has at most so many records, or bytes.
#[derive(Clone, Copy)]
pub struct Lists {
    pub widest: usize,
}

#[derive(Clone)]
struct Run {
    times: usize,
    values: Vec<u32>,
    steps: Vec<u32>,
}

impl Lists {
    pub fn bytes(self, bytes: &[u8]) -> String {
        let cells: Vec<u32> = bytes.iter().map(|&byte| byte.into()).collect();
        shown(&self.runs_of(&cells, 1), quoted)
    }

    /// Records of so many cells: what repeats does so by whole records.
    pub fn records(self, cells: &[u32], width: usize) -> String {
        shown(&self.runs_of(cells, width), spaced)
    }

    /// The same behind a cell that is a run of its own.
    pub fn records_behind(self, first: u32, cells: &[u32], width: usize) -> String {
        let first = Run { times: 1, values: vec![first], steps: Vec::new() };
        shown(&[vec![first], self.runs_of(cells, width)].concat(), spaced)
    }

    /// What repeats little stays in one run that a reader can follow.
    fn runs_of(self, cells: &[u32], unit: usize) -> Vec<Run> {
        let (mut runs, mut literal, mut at) = (Vec::new(), Vec::new(), 0);
        while at < cells.len() {
            let mut best = (20, 1, unit, Vec::new());
            for width in (unit..=self.widest * unit).step_by(unit) {
                let (times, steps) = repeated(cells, at, width);
                let saved = (times.max(2) - 2) * width;
                if saved > best.0 {
                    best = (saved, times, width, steps);
                }
            }
            let (_, times, width, steps) = best;
            let end = cells.len().min(at + width);
            if times == 1 {
                literal.extend_from_slice(&cells[at..end]);
            } else {
                runs.extend(as_run(&mut literal));
                runs.push(Run { times, values: cells[at..end].to_vec(), steps });
            }
            at += times * width;
        }
        runs.extend(as_run(&mut literal));
        runs
    }
}

/// How often the values from a place on stand there, growing by the same steps each time; and those steps.
fn repeated(cells: &[u32], at: usize, width: usize) -> (usize, Vec<u32>) {
    let Some(twice) = cells.get(at..at + 2 * width) else {
        return (1, Vec::new());
    };
    let (once, again) = twice.split_at(width);
    let steps: Option<Vec<u32>> = once.iter().zip(again).map(|(one, next)| next.checked_sub(*one)).collect();
    let Some(steps) = steps else {
        return (1, Vec::new());
    };
    let mut end = at + 2 * width;
    while end < cells.len() && cells[end].checked_sub(cells[end - width]) == Some(steps[(end - at) % width]) {
        end += 1;
    }
    ((end - at) / width, steps)
}

fn as_run(literal: &mut Vec<u32>) -> Option<Run> {
    let values = std::mem::take(literal);
    (!values.is_empty()).then_some(Run { times: 1, values, steps: Vec::new() })
}

fn shown(runs: &[Run], form: fn(&[u32]) -> String) -> String {
    let mut parts = vec![runs.len().to_string()];
    for Run { times, values, steps } in runs {
        parts.extend([times.to_string(), values.len().to_string(), form(values)]);
        if !steps.is_empty() {
            parts.push(spaced(steps));
        }
    }
    parts.join(" ")
}

fn quoted(values: &[u32]) -> String {
    let plain = values.iter().map(|&value| match u8::try_from(value).expect("a byte") {
        byte @ (b'"' | b'\\') => format!("\\{byte:02x}"),
        byte @ b' '..=b'~' => char::from(byte).to_string(),
        byte => format!("\\{byte:02x}"),
    });
    format!("\"{}\"", plain.collect::<String>())
}

//! The benchmark: this crate and the Rust original on the same texts, in one run.
//!
//! ```text
//! cargo run --release --example bench
//! ```
//!
//! A text is read and checked again and again, and the shortest time of all rounds counts, on all sides alike: this crate,
//! which lends slices of cells, its functions on bytes, the Rust original, and the same with its lexer repaired, which
//! counts from the text's first character at each one (oracle/README.md). Beside them stands the time of a memset of the
//! slices that are lent, which each call must fill: nothing can be faster. Where the Rust files are not to be had, their
//! columns are empty. Then one function of a text is changed and rechecked, beside a check of the edited text. What is
//! printed are tables as docs/BENCHMARK.md has them, and then what was aimed at. A time is no promise: nothing here fails
//! because of one.
#[path = "../../tests/support/mod.rs"]
mod support;
mod table;
mod texts;

use std::hint::black_box;
use std::process::ExitCode;
use std::time::{Duration, Instant};

use pitchsleet::Reader;
use pitchsleet::raw::{self, CHECK_OUT_BYTES, MESSAGE_BYTES, OUT_BYTES, TEXT_BYTES};
use support::oracle::{self, Depth, Oracle, Program};
use support::records::SIZES;
use table::{Table, micros, times};
use texts::{ORDINARY, Text};

/// Rounds go on for so long, and there are at least so many: as on the Rust's side.
const LASTS: Duration = Duration::from_millis(1000);
const ROUNDS: u32 = 5;

/// And for so long where the worst of many texts is looked for.
const LOOKS: Duration = Duration::from_millis(30);

// The aims. All but the last but one speak of ordinary rules.

/// How many times faster than the Rust it shall be, by so many bytes.
const AHEAD: [(usize, f64); 3] = [(1_024, 5.0), (4_096, 20.0), (16_384, 50.0)];

/// From so many bytes on it shall be ahead of the repaired Rust.
const AHEAD_OF_REPAIRED: usize = 2_048;

/// How many times the memset a check shall take at most, of so many bytes.
const NEAR_MEMSET: (usize, f64) = (100, 1.5);

/// No text shall take longer, in nanoseconds.
const WORST: u64 = 2_000_000;

/// How many times faster than a check of the edited text a recheck shall be, in so many bytes.
const RECHECK: (usize, f64) = (16_384, 3.0);

/// About how long the function is that is changed.
const FUNCTION: usize = 300;

fn main() -> ExitCode {
    if cfg!(debug_assertions) {
        eprintln!("bench: cargo run --release --example bench: without --release the times say nothing");
        return ExitCode::from(2);
    }
    let texts = all_texts();
    hold_the_repaired_to_the_original(&texts);
    let width = texts.iter().map(|text| text.title.len()).max().unwrap_or(0);
    println!("Microseconds, the shortest of all rounds.\n\nread\n");
    let table = Table::new(width, &COLUMNS.map(|column| column.replace("OURS", "read")));
    let measured: Vec<(&Text, Times, Times)> = texts
        .iter()
        .map(|text| {
            let (read, check) = measure(text);
            table.row(&read.cells(text));
            (text, read, check)
        })
        .collect();
    println!("\ncheck\n");
    let table = Table::new(width, &COLUMNS.map(|column| column.replace("OURS", "check")));
    measured.iter().for_each(|(text, _, check)| table.row(&check.cells(text)));
    println!("\nrecheck of one function\n");
    let table = Table::new(0, &RECHECK_COLUMNS.map(str::to_owned));
    let rechecks = [1_024, 4_096, TEXT_BYTES].map(|bytes| (bytes, recheck(bytes, &table)));
    println!("\n{LEGEND}\n\nAims:\n");
    let rows = measured.iter().flat_map(|(text, read, check)| [("read", *text, read), ("check", *text, check)]);
    aims(rows.collect(), &rechecks).iter().for_each(|aim| println!("- {aim}"));
    ExitCode::SUCCESS
}

const COLUMNS: [&str; 12] = [
    "text", "bytes", "tokens", "memset", "OURS", "on bytes", "the Rust", "repaired", "OURS/memset", "on bytes/OURS",
    "Rust/OURS", "repaired/OURS",
];

const RECHECK_COLUMNS: [&str; 9] = [
    "bytes of the text", "of the function", "tokens", "memset", "recheck", "on bytes", "fresh check", "recheck/memset",
    "fresh/recheck",
];

const LEGEND: &str = "\
memset: of the slices that are lent. read, check, recheck, fresh check: this crate's Reader, which lends slices of cells.
on bytes: the C functions on bytes, by raw::read, check and recheck. the Rust: the original, unchanged; repaired: with a
lexer that doesn't count from the text's first character at each one. a/b: a's time by b's.";

/// Every text, with the worst of those that may be it.
fn all_texts() -> Vec<Text> {
    let mut texts: Vec<Text> = texts::of_each_length().chain(texts::of_many_names()).collect();
    texts.push(slowest(texts::full_of_names()));
    texts.push(slowest(texts::names_alone()));
    texts.extend(texts::refused());
    let mut reader = Reader::new();
    for text in &texts {
        let read = reader.read(&text.bytes).map_or_else(|refusal| refusal.number(), |_| 0);
        let check = reader.check(&text.bytes).map_or_else(|refusal| refusal.number(), |_| 0);
        assert_eq!((read, check), (text.read, text.check), "{}", text.title);
    }
    texts
}

/// The text that a check takes longest for.
fn slowest(texts: impl Iterator<Item = Text>) -> Text {
    let mut reader = Reader::new();
    texts.max_by_key(|text| shortest_in(LOOKS, || reader.check(black_box(&text.bytes)).is_ok())).expect("some texts")
}

/// Both programs that are timed answer alike, or the times of one say nothing of the other.
fn hold_the_repaired_to_the_original(texts: &[Text]) {
    let texts: Vec<Vec<u8>> = texts.iter().map(|text| text.bytes.clone()).collect();
    for depth in [Depth::Read, Depth::Check] {
        let answers = |program| Oracle::start_timed(program, depth).map(|mut oracle| oracle.ask(&texts));
        assert!(answers(Program::Original) == answers(Program::Repaired), "the repaired Rust answers otherwise");
    }
}

/// What was measured of a text, in nanoseconds.
struct Times {
    memset: u64,
    ours: u64,
    on_bytes: u64,
    rust: Option<u64>,
    repaired: Option<u64>,
    tokens: usize,
}

/// A text read, and checked.
fn measure(text: &Text) -> (Times, Times) {
    let bytes = &text.bytes[..];
    let (rust, repaired) = (oracle::time(Program::Original, bytes), oracle::time(Program::Repaired, bytes));
    let mut reader = Reader::new();
    let tokens = reader.read(bytes).map_or(0, |tokens| tokens.len());
    let (mut out, mut message) = (vec![1_u8; CHECK_OUT_BYTES], vec![1_u8; MESSAGE_BYTES]);
    let read = Times {
        memset: memset(&SIZES[..2]),
        ours: shortest(|| reader.read(black_box(bytes)).is_ok()),
        on_bytes: shortest(|| raw::read(black_box(bytes), &mut out[..OUT_BYTES], &mut message)),
        rust: rust.map(|(read, _)| read),
        repaired: repaired.map(|(read, _)| read),
        tokens,
    };
    let check = Times {
        memset: memset(&SIZES),
        ours: shortest(|| reader.check(black_box(bytes)).is_ok()),
        on_bytes: shortest(|| raw::check(black_box(bytes), &mut out, &mut message)),
        rust: rust.map(|(_, check)| check),
        repaired: repaired.map(|(_, check)| check),
        tokens,
    };
    (read, check)
}

impl Times {
    fn cells(&self, text: &Text) -> Vec<String> {
        let optional = |time: Option<u64>| time.map(micros).unwrap_or_default();
        let ratio = |time: Option<u64>| time.map(|time| times(time, self.ours)).unwrap_or_default();
        vec![
            text.title.clone(),
            table::grouped(text.bytes.len() as u64),
            table::grouped(self.tokens as u64),
            micros(self.memset),
            micros(self.ours),
            micros(self.on_bytes),
            optional(self.rust),
            optional(self.repaired),
            times(self.ours, self.memset),
            times(self.on_bytes, self.ours),
            ratio(self.rust),
            ratio(self.repaired),
        ]
    }
}

/// What was aimed at, what was found, and whether the aim is met. Where the Rust files are not to be had, what is said of
/// them is left out.
fn aims(rows: Vec<(&str, &Text, &Times)>, rechecks: &[(usize, f64)]) -> Vec<String> {
    let mut aims = Vec::new();
    let mut aim = |what: String, found: String, is_met: bool| {
        aims.push(format!("{what}: {found}, {}", if is_met { "met" } else { "MISSED" }));
    };
    for (command, text, times_of) in rows.iter().filter(|(_, text, _)| text.title == ORDINARY) {
        let bytes = text.bytes.len();
        let of = format!("{command} of {} bytes", table::grouped(bytes as u64));
        if (*command, bytes) == ("check", NEAR_MEMSET.0) {
            let found = times_of.ours as f64 / times_of.memset as f64;
            aim(
                format!("{of}, at most {} times the memset", NEAR_MEMSET.1),
                format!("{found:.2}"),
                found <= NEAR_MEMSET.1,
            );
        }
        if let (Some((_, least)), Some(rust)) = (AHEAD.iter().find(|(at, _)| *at == bytes), times_of.rust) {
            let found = rust as f64 / times_of.ours as f64;
            aim(format!("{of}, at least {least} times as fast as the Rust"), format!("{found:.1}"), found >= *least);
        }
        if let (true, Some(repaired)) = (bytes >= AHEAD_OF_REPAIRED, times_of.repaired) {
            let found = repaired as f64 / times_of.ours as f64;
            aim(format!("{of}, ahead of the repaired Rust, times as fast"), format!("{found:.2}"), found > 1.0);
        }
    }
    for command in ["read", "check"] {
        let of_command = rows.iter().filter(|(of, ..)| *of == command);
        let (_, text, times_of) = of_command.max_by_key(|(_, _, times_of)| times_of.ours).expect("some texts");
        let what = format!("{command} of the worst text ({}), at most {} microseconds", text.title, micros(WORST));
        aim(what, micros(times_of.ours), times_of.ours <= WORST);
    }
    for (bytes, found) in rechecks.iter().filter(|(bytes, _)| *bytes == RECHECK.0) {
        let of = format!("recheck in a text of {} bytes", table::grouped(*bytes as u64));
        aim(
            format!("{of}, at least {} times as fast as a fresh check", RECHECK.1),
            format!("{found:.1}"),
            *found >= RECHECK.1,
        );
    }
    aims
}

/// One function of ordinary rules changed: rechecked, beside a check of the edited text. How many times as fast it is.
fn recheck(bytes: usize, table: &Table) -> f64 {
    let old = texts::ordinary(bytes, "");
    let mut reader = Reader::new();
    let unit = reader.check(&old).expect("accepted");
    let headers = unit.headers();
    let (number, function) =
        unit.functions().enumerate().min_by_key(|(_, f)| f.span().len().abs_diff(FUNCTION)).expect("a function");
    let span = function.span();
    let new = String::from_utf8_lossy(&old[span.clone()]).replace("const -2", "const -3").into_bytes();
    let edited = [&old[..span.start], &new, &old[span.end..]].concat();
    assert!(edited != old && edited.len() == bytes && reader.recheck(&headers, number, &new).is_ok());
    let tokens = reader.check(&edited).expect("accepted").tokens().len();
    let (header_table, mut out, mut message) =
        (headers.table(), vec![1_u8; CHECK_OUT_BYTES], vec![1_u8; MESSAGE_BYTES]);
    let memset = memset(&SIZES);
    let ours = shortest(|| reader.recheck(black_box(&headers), number, black_box(&new)).is_ok());
    let on_bytes =
        shortest(|| raw::recheck(&old, &header_table, number as u32, black_box(&new), &mut out, &mut message));
    let fresh = shortest(|| reader.check(black_box(&edited)).is_ok());
    table.row(&[
        table::grouped(bytes as u64),
        table::grouped(new.len() as u64),
        table::grouped(tokens as u64),
        micros(memset),
        micros(ours),
        micros(on_bytes),
        micros(fresh),
        times(ours, memset),
        times(fresh, ours),
    ]);
    fresh as f64 / ours as f64
}

fn shortest<T>(round: impl FnMut() -> T) -> u64 {
    shortest_in(LASTS, round)
}

fn shortest_in<T>(lasts: Duration, mut round: impl FnMut() -> T) -> u64 {
    let (start, mut best) = (Instant::now(), Duration::MAX);
    let mut rounds = 0;
    while rounds < ROUNDS || start.elapsed() < lasts {
        let begun = Instant::now();
        black_box(round());
        best = best.min(begun.elapsed());
        rounds += 1;
    }
    best.as_nanos() as u64
}

/// A memset of slices of these sizes, in cells, and of a message.
fn memset(sizes: &[usize]) -> u64 {
    let mut slices: Vec<Vec<u32>> = sizes.iter().map(|size| vec![1; *size]).collect();
    let mut message = vec![1_u8; MESSAGE_BYTES];
    shortest(|| {
        slices.iter_mut().for_each(|slice| black_box(&mut slice[..]).fill(0));
        black_box(&mut message[..]).fill(0);
    })
}

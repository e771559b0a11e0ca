//! How long the Rust takes for a text, as a line of JSON: `{"read_ns":N,"check_ns":N}`.
//!
//! A text is read, or read, parsed and typed, again and again: the shortest time of all rounds counts, as what else the
//! machine does only makes a round longer. What a round made is given back outside the time.
use std::hint::black_box;
use std::panic::{AssertUnwindSafe, catch_unwind};
use std::time::{Duration, Instant};

use bril_lib::ir::Unit;
use bril_lib::lexer::{LexResult, Lexer};
use bril_lib::parser::Parser;
use utils::DiagnosticEmitter;

/// Rounds go on for so long, and there are at least so many.
const LASTS: Duration = Duration::from_millis(1000);
const ROUNDS: u32 = 5;

pub fn line(text: &[u8]) -> String {
    let text = String::from_utf8_lossy(text);
    let (read, check) = (shortest(|| read(&text)), shortest(|| check(&text)));
    format!("{{\"read_ns\":{},\"check_ns\":{}}}", read.as_nanos(), check.as_nanos())
}

fn shortest<T>(mut round: impl FnMut() -> T) -> Duration {
    let (start, mut best) = (Instant::now(), Duration::MAX);
    let mut rounds = 0;
    while rounds < ROUNDS || start.elapsed() < LASTS {
        let begun = Instant::now();
        let made = black_box(round());
        best = best.min(begun.elapsed());
        drop(made);
        rounds += 1;
    }
    best
}

fn read(text: &str) -> LexResult {
    let mut diagnostics = DiagnosticEmitter::log_to_buffer();
    Lexer::new(text, &mut diagnostics).lex_all()
}

fn check(text: &str) -> Option<Unit> {
    let mut diagnostics = DiagnosticEmitter::log_to_buffer();
    let lexed = Lexer::new(text, &mut diagnostics).lex_all();
    // A text that the lexer refuses has no token, not even the end's: the parser would find nothing to look at.
    if lexed.tokens.is_empty() {
        return None;
    }
    let parser = AssertUnwindSafe(|| Parser::new(lexed, &mut diagnostics).parse());
    catch_unwind(parser).ok().flatten()
}

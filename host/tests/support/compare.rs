//! The comparison: what this crate says of texts, against the model of document 01 and against the Rust.
use std::collections::BTreeMap;
use std::fmt::{self, Display, Formatter};

use pitchsleet::Printable;

use super::against_model::Lent;
use super::against_rust::compare_with_rust;
use super::model;
use super::oracle::{Depth, Oracle, RustSaid};

/// How many texts the oracle is asked at once.
const BATCH: usize = 512;

/// How many differing texts are told, and how much of each; more of the same would help nobody.
const TOLD: usize = 5;
const TOLD_BYTES: usize = 400;

/// What was compared, and what differed.
#[derive(Default)]
pub struct Report {
    texts: usize,
    /// Texts whose answer was held against the Rust's.
    held_to_rust: usize,
    /// Texts that the Rust was asked and that were left out, since typing came to a block that can't be reached, or ties
    /// with one: there its sources don't fix the order.
    unreachable: usize,
    /// Texts that the Rust was asked and that were left out, since it drops a number that 43 refuses.
    out_of_range: usize,
    /// How many texts were answered with each number.
    numbers: BTreeMap<u32, usize>,
    differing: usize,
    told: Vec<String>,
}

impl Report {
    pub fn is_clean(&self) -> bool {
        self.differing == 0
    }

    /// How many texts were answered with a number.
    pub fn answered(&self, number: u32) -> usize {
        self.numbers.get(&number).copied().unwrap_or(0)
    }

    pub fn held_to_rust(&self) -> usize {
        self.held_to_rust
    }

    fn agrees(&mut self, compared: &Compared) {
        *self.numbers.entry(compared.number).or_default() += 1;
        match compared.with {
            With::ModelAlone => {}
            With::Rust => self.held_to_rust += 1,
            With::ModelForTheOrder => self.unreachable += 1,
            With::ModelForTheNumber => self.out_of_range += 1,
        }
    }
}

impl Display for Report {
    fn fmt(&self, f: &mut Formatter<'_>) -> fmt::Result {
        let Self { texts, held_to_rust, unreachable, out_of_range, differing, .. } = self;
        write!(f, "{texts} texts, {held_to_rust} of them held to the Rust")?;
        if *unreachable > 0 {
            write!(f, ", {unreachable} with an unreachable block left out of that")?;
        }
        if *out_of_range > 0 {
            write!(f, ", {out_of_range} with a number out of range left out of that")?;
        }
        write!(f, "; answers")?;
        for (number, count) in &self.numbers {
            write!(f, " {number}: {count}")?;
        }
        write!(f, "; {differing} differ")?;
        self.told.iter().try_for_each(|difference| write!(f, "\n{difference}"))
    }
}

/// Compares texts as they come.
pub struct Comparison {
    depth: Depth,
    lent: Lent,
    oracle: Option<Oracle>,
    pub report: Report,
}

/// What came of a text that doesn't differ.
struct Compared {
    number: u32,
    with: With,
}

/// What an answer was held to, beside the model.
enum With {
    /// Nothing: the Rust isn't there, or knows no such limit.
    ModelAlone,
    Rust,
    /// Nothing: the order in which the Rust types the blocks isn't fixed.
    ModelForTheOrder,
    /// Nothing: the Rust drops the number that is refused here.
    ModelForTheNumber,
}

impl Comparison {
    pub fn new(depth: Depth) -> Self {
        Self { depth, lent: Lent::new(), oracle: Oracle::start(depth), report: Report::default() }
    }

    pub fn all(&mut self, texts: impl IntoIterator<Item = Vec<u8>>) {
        let mut texts = texts.into_iter();
        loop {
            let batch: Vec<Vec<u8>> = texts.by_ref().take(BATCH).collect();
            if batch.is_empty() {
                return;
            }
            self.batch(&batch);
        }
    }

    fn batch(&mut self, texts: &[Vec<u8>]) {
        let rust = self.ask_rust(texts);
        for (index, text) in texts.iter().enumerate() {
            let rust = rust.as_ref().map(|answers| &answers[index]);
            self.report.texts += 1;
            match compare(self.depth, &mut self.lent, text, rust) {
                Ok(compared) => self.report.agrees(&compared),
                Err(_) => self.differs(text),
            }
        }
    }

    /// Too long a text is nothing to ask the Rust, which has no limit and is slow on it.
    fn ask_rust(&mut self, texts: &[Vec<u8>]) -> Option<Vec<RustSaid>> {
        let oracle = self.oracle.as_mut()?;
        let asked = texts.iter().map(|text| if text.len() > model::BYTES { Vec::new() } else { text.clone() });
        Some(oracle.ask(&asked.collect::<Vec<_>>()))
    }

    fn differs(&mut self, text: &[u8]) {
        self.report.differing += 1;
        if self.report.told.len() < TOLD {
            let least = self.smallest(text);
            let why = self.difference(&least).unwrap_or_default();
            let text = &text[..text.len().min(TOLD_BYTES)];
            let (text, least) = (Printable(text), Printable(&least));
            self.report.told.push(format!("- {least}\n  {why}\n  found in: {text}"));
        }
    }

    /// A smaller text that differs too: parts are left out, smaller and smaller ones, as long as one is found.
    fn smallest(&mut self, text: &[u8]) -> Vec<u8> {
        let mut least = text.to_vec();
        let mut part = least.len();
        while part > 0 {
            let before = least.len();
            let mut at = 0;
            while at < least.len() {
                let end = least.len().min(at + part);
                let shorter = [&least[..at], &least[end..]].concat();
                match self.difference(&shorter) {
                    Some(_) => least = shorter,
                    None => at = end,
                }
            }
            if least.len() == before {
                part /= 2;
            }
        }
        least
    }

    fn difference(&mut self, text: &[u8]) -> Option<String> {
        let rust = self.ask_rust(&[text.to_vec()]);
        let rust = rust.as_ref().and_then(|answers| answers.first());
        compare(self.depth, &mut self.lent, text, rust).err()
    }
}

/// Holds what this crate says of a text to the model, and to the Rust where it has an answer of its own.
fn compare(depth: Depth, lent: &mut Lent, text: &[u8], rust: Option<&RustSaid>) -> Result<Compared, String> {
    let (said, order_is_open) = match depth {
        Depth::Read => (lent.compare_read(text)?, false),
        Depth::Check => {
            let checked = lent.compare_check(text)?;
            (checked.said, checked.order_is_open)
        }
    };
    let with = match rust {
        None => With::ModelAlone,
        Some(_) if is_by_a_limit(said.number()) => With::ModelAlone,
        Some(_) if is_out_of_range(said.number()) => With::ModelForTheNumber,
        Some(_) if order_is_open => With::ModelForTheOrder,
        Some(rust) => {
            compare_with_rust(text, &said, rust)?;
            With::Rust
        }
    };
    Ok(Compared { number: said.number(), with })
}

/// The Rust knows no limits: where one decides, the model alone is compared with.
pub fn is_by_a_limit(number: u32) -> bool {
    (31..=38).contains(&number)
}

/// The Rust drops a number above 2147483647 and goes on: what it then says is of another text.
pub fn is_out_of_range(number: u32) -> bool {
    number == 43
}

//! The comparison of edits: this crate's recheck against the model's, the model's against a check of the edited text,
//! and that against the Rust; and by demand 3 what the C functions write, cell by cell.
use std::collections::BTreeMap;
use std::fmt::{self, Display, Formatter};

use pitchsleet::Printable;

use super::against_fresh::{Premise, Rechecked, compare_with_fresh};
use super::against_model::Lent;
use super::against_rust::compare_with_rust;
use super::compare::is_by_a_limit;
use super::demand_3::{Held, hold_to_demand_3};
use super::edits::{Edit, Quadruple};
use super::oracle::{Depth, Oracle};
use super::records::cells_of;

/// How many texts the oracle is asked at once.
const BATCH: usize = 512;

/// How many differing edits are told; more of the same would help nobody.
const TOLD: usize = 5;

/// What was compared, and what differed.
#[derive(Default)]
pub struct EditReport {
    edits: usize,
    /// How many edits were answered with each number, where demand 3 speaks.
    numbers: BTreeMap<u32, usize>,
    /// How many were left out since a premise fails, and how many of these were answered with each number.
    failing: BTreeMap<Premise, BTreeMap<u32, usize>>,
    /// Readings that the C functions write alike in every cell: those of the other functions, before an edit that is
    /// accepted and after it, and those of replaced functions, checked and rechecked. (A new function's is alike wherever
    /// the answer is 0.)
    other_readings: usize,
    replaced_readings: usize,
    /// How many were answered with each number where the table isn't one that check wrote for the old text.
    by_other_tables: BTreeMap<u32, usize>,
    /// Edits after which the answer to the whole text was held against the Rust's.
    held_to_rust: usize,
    /// Those left out of that, since typing came to a block that can't be reached, or ties with one.
    unreachable: usize,
    differing: usize,
    told: Vec<String>,
}

impl EditReport {
    pub fn is_clean(&self) -> bool {
        self.differing == 0
    }

    /// How many edits were answered with a number, where demand 3 speaks.
    pub fn answered(&self, number: u32) -> usize {
        self.numbers.get(&number).copied().unwrap_or(0)
    }

    /// How many edits were left out since a premise fails.
    pub fn left_out(&self, premise: Premise) -> usize {
        self.failing.get(&premise).map_or(0, |numbers| numbers.values().sum())
    }

    /// How many were answered with a number where the table isn't one that check wrote for the old text.
    pub fn answered_by_other_tables(&self, number: u32) -> usize {
        self.by_other_tables.get(&number).copied().unwrap_or(0)
    }

    pub fn held_to_rust(&self) -> usize {
        self.held_to_rust
    }

    /// How many other functions were found to read as before the edit, in every cell.
    pub fn other_readings(&self) -> usize {
        self.other_readings
    }

    fn agrees(&mut self, held: &Held) {
        let numbers = match held.fails {
            Some(premise) => self.failing.entry(premise).or_default(),
            None => &mut self.numbers,
        };
        *numbers.entry(held.number).or_default() += 1;
        self.other_readings += held.others;
        self.replaced_readings += 1;
    }

    fn differs(&mut self, edit: &Edit, why: &str) {
        let (old, new) = (Printable(&edit.old), Printable(&edit.new));
        self.tell(format!("- function {} of: {old}\n  becomes: {new}\n  {why}", edit.number));
    }

    fn tell(&mut self, difference: String) {
        self.differing += 1;
        if self.told.len() < TOLD {
            self.told.push(difference);
        }
    }
}

impl Display for EditReport {
    fn fmt(&self, f: &mut Formatter<'_>) -> fmt::Result {
        let Self { edits, held_to_rust, unreachable, differing, .. } = self;
        write!(f, "{edits} edits held to the model; where demand 3 speaks:{}", Listed(&self.numbers))?;
        write!(
            f,
            "; {held_to_rust} of them held to the Rust, {unreachable} with an unreachable block left out of that"
        )?;
        for (premise, numbers) in &self.failing {
            write!(f, "; not so that {premise}:{}", Listed(numbers))?;
        }
        let (new, others, replaced) = (self.answered(0), self.other_readings, self.replaced_readings);
        write!(
            f,
            "; by the C functions, in every cell: {new} new functions read alone as afresh, {others} others as before, \
             {replaced} replaced ones rechecked as before"
        )?;
        write!(f, "; held to the model by other tables:{}", Listed(&self.by_other_tables))?;
        write!(f, "; {differing} differ")?;
        self.told.iter().try_for_each(|difference| write!(f, "\n{difference}"))
    }
}

/// Numbers, each with how many answers have it, and how many these are together.
struct Listed<'r>(&'r BTreeMap<u32, usize>);

impl Display for Listed<'_> {
    fn fmt(&self, f: &mut Formatter<'_>) -> fmt::Result {
        write!(f, " {} (", self.0.values().sum::<usize>())?;
        for (at, (number, count)) in self.0.iter().enumerate() {
            write!(f, "{}{number}: {count}", if at == 0 { "" } else { ", " })?;
        }
        write!(f, ")")
    }
}

/// Compares edits as they come.
pub struct EditComparison {
    lent: Lent,
    oracle: Option<Oracle>,
    pub report: EditReport,
}

impl EditComparison {
    pub fn new() -> Self {
        Self { lent: Lent::new(), oracle: Oracle::start(Depth::Check), report: EditReport::default() }
    }

    /// Rechecks that demand 3 says nothing of: what they are held to is the model.
    pub fn by_other_tables(&mut self, quadruples: impl IntoIterator<Item = Quadruple>) {
        for quadruple in quadruples {
            match self.lent.compare_recheck(&quadruple) {
                Ok(said) => *self.report.by_other_tables.entry(said.number()).or_default() += 1,
                Err(why) => {
                    let Quadruple { old, table, number, new } = &quadruple;
                    let (old, new, table) = (Printable(old), Printable(new), cells_of(table));
                    let end = table.iter().rposition(|&cell| cell != 0).map_or(0, |last| last + 1);
                    let table = &table[..end];
                    self.report
                        .tell(format!("- function {number} of: {old}\n  by {table:?}\n  becomes: {new}\n  {why}"));
                }
            }
        }
    }

    pub fn all(&mut self, edits: impl IntoIterator<Item = Edit>) {
        let mut edits = edits.into_iter();
        loop {
            let batch: Vec<Edit> = edits.by_ref().take(BATCH).collect();
            if batch.is_empty() {
                return;
            }
            let owed = batch.iter().filter_map(|edit| Some((edit, self.one(edit)?))).collect();
            self.hold_to_rust(owed);
        }
    }

    /// An edit whose answer is owed a comparison with the Rust.
    fn one(&mut self, edit: &Edit) -> Option<Rechecked> {
        self.report.edits += 1;
        let (rechecked, held) = match compare(&mut self.lent, edit) {
            Ok(compared) => compared,
            Err(why) => {
                self.report.differs(edit, &why);
                return None;
            }
        };
        self.report.agrees(&held);
        let speaks = rechecked.fails.is_none();
        if speaks && rechecked.fresh.order_is_open {
            self.report.unreachable += 1;
            return None;
        }
        (speaks && !is_by_a_limit(rechecked.number)).then_some(rechecked)
    }

    /// Recheck says the same as a check of the edited text, which must be what the Rust says.
    fn hold_to_rust(&mut self, owed: Vec<(&Edit, Rechecked)>) {
        let Some(oracle) = &mut self.oracle else { return };
        let texts: Vec<Vec<u8>> = owed.iter().map(|(_, rechecked)| rechecked.edited.clone()).collect();
        for ((edit, rechecked), rust) in owed.iter().zip(oracle.ask(&texts)) {
            match compare_with_rust(&rechecked.edited, &rechecked.fresh.said, &rust) {
                Ok(()) => self.report.held_to_rust += 1,
                Err(why) => self.report.differs(edit, &why),
            }
        }
    }
}

/// Every answer to an edit: this crate's as the model's, the model's by demand 3, and the C functions' by demand 3. The last
/// two must come to the same.
fn compare(lent: &mut Lent, edit: &Edit) -> Result<(Rechecked, Held), String> {
    lent.compare_edit(edit)?;
    let rechecked = compare_with_fresh(edit)?;
    let held = hold_to_demand_3(lent, edit)?;
    let (by_cells, by_model) = ((held.number, held.fails), (rechecked.number, rechecked.fails));
    if by_cells != by_model || held.edited != rechecked.edited {
        let edited = Printable(&held.edited);
        return Err(format!("the C functions come to {by_cells:?}, the model to {by_model:?}, with the text {edited}"));
    }
    Ok((rechecked, held))
}

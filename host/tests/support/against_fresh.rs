//! Recheck against a check of the whole edited text: what demand 3 asks, of the model's answers.
use std::fmt::{self, Display, Formatter};

use super::edits::{Edit, table_of};
use super::model::{self, Checked};
use super::said::{Said, SaidFunction, SaidLabel, SaidName, SaidOperation, SaidToken, SaidVariable, Ty, Verdict};

/// A premise of demand 3, in the order in which they are looked at.
#[derive(Clone, Copy, Debug, PartialEq, Eq, PartialOrd, Ord)]
pub enum Premise {
    LexesAlone,
    RunsFromNameToBrace,
    KeepsTheHeader,
    HoldsNoSecondFunction,
    StaysInsideBytes,
    StaysInsideTokens,
    StaysInsideNames,
}

impl Premise {
    pub const ALL: [Self; 7] = [
        Self::LexesAlone,
        Self::RunsFromNameToBrace,
        Self::KeepsTheHeader,
        Self::HoldsNoSecondFunction,
        Self::StaysInsideBytes,
        Self::StaysInsideTokens,
        Self::StaysInsideNames,
    ];
}

impl Display for Premise {
    fn fmt(&self, f: &mut Formatter<'_>) -> fmt::Result {
        f.write_str(match self {
            Self::LexesAlone => "the new text lexes alone",
            Self::RunsFromNameToBrace => "it runs from its name to a closing brace",
            Self::KeepsTheHeader => "it keeps the header",
            Self::HoldsNoSecondFunction => "it holds no second function",
            Self::StaysInsideBytes => "the edited text stays inside the limit on bytes",
            Self::StaysInsideTokens => "on tokens",
            Self::StaysInsideNames => "on names",
        })
    }
}

/// An edit whose recheck is as demand 3 asks.
pub struct Rechecked {
    /// What recheck answered.
    pub number: u32,
    /// The premise that fails, where demand 3 says nothing of the answer.
    pub fails: Option<Premise>,
    pub edited: Vec<u8>,
    /// The answer to the edited text.
    pub fresh: Checked,
}

/// Rechecks by the model. Wherever demand 3 speaks, a check of the edited text must give the same; and where it doesn't,
/// the premise that recheck's answer says to fail must fail.
pub fn compare_with_fresh(edit: &Edit) -> Result<Rechecked, String> {
    let Edit { old, before, number, new } = edit;
    let Some(table) = table_of(before) else { return Err(format!("the old text is refused: {before}")) };
    let replaced = function_of(before, *number);
    let edited = [&old[..replaced.place], new, &old[replaced.end_place + 1..]].concat();
    let (said, fresh) = (model::recheck(old, &table, *number as u32, new).said, model::check(&edited));
    let fails = fails(said.verdict(), fresh.said.verdict())?;
    let known = known_of_new(new, before, replaced);
    if !known.allows(fails) {
        return Err(format!("recheck says {said}\n  of the new text is known: {known:?}"));
    }
    if fails.is_none() {
        same_answer(&said, &fresh.said, *number, replaced.place)?;
        others_as_before(before, &fresh.said, *number)?;
    }
    Ok(Rechecked { number: said.number(), fails, edited, fresh })
}

fn function_of(said: &Said, number: usize) -> &SaidFunction {
    let Said::Accepted { functions, .. } = said else { panic!("refused: {said}") };
    &functions[number]
}

// ---- premises ----------------------------------------------------------------------------------------------------------

/// The premise that fails by the answers. "Demand 3 speaks where the answer is no lexical number and none of 30, 40, 41,
/// 42", of both answers; and with a table as check wrote it there is no 42.
pub fn fails(alone: Verdict, fresh: Verdict) -> Result<Option<Premise>, String> {
    Ok(match (alone.number, fresh.number) {
        (1..=4 | 31..=34 | 43, _) => Some(Premise::LexesAlone),
        (40, _) if alone.place == 0 => Some(Premise::RunsFromNameToBrace),
        (40, _) => Some(Premise::HoldsNoSecondFunction),
        (41, _) => Some(Premise::KeepsTheHeader),
        (30 | 42, _) => return Err(format!("recheck says {alone}")),
        (_, 31) => Some(Premise::StaysInsideBytes),
        (_, 32) => Some(Premise::StaysInsideTokens),
        (_, 33) => Some(Premise::StaysInsideNames),
        (_, 1..=4 | 34 | 43) => return Err(format!("recheck says {alone}\n  a check of the edited text {fresh}")),
        _ => None,
    })
}

/// What is known of the first three premises, those of the new text alone, by other means than recheck.
#[derive(Debug)]
enum Known {
    Fails(Premise),
    Hold,
    /// The header isn't known, since it isn't one, or has a formal twice with two types.
    HeaderIsOpen,
}

impl Known {
    /// Whether a premise may be the first that fails, by the answers; or none.
    fn allows(&self, fails: Option<Premise>) -> bool {
        let beyond = fails.is_none_or(|fails| fails >= Premise::HoldsNoSecondFunction);
        match self {
            Self::Fails(premise) => fails == Some(*premise),
            Self::Hold => beyond,
            Self::HeaderIsOpen => beyond || fails == Some(Premise::KeepsTheHeader),
        }
    }
}

/// Whether the new text lexes, whether its last byte is a token, and what a check says of its header with a body that any
/// header may have.
fn known_of_new(new: &[u8], before: &Said, replaced: &SaidFunction) -> Known {
    let tokens = |text: &[u8]| match model::read(text) {
        Said::Accepted { tokens, .. } => Some(tokens),
        Said::Refused { .. } => None,
    };
    let Some(all) = tokens(new) else { return Known::Fails(Premise::LexesAlone) };
    let Some((b'}', rest)) = new.split_last() else { return Known::Fails(Premise::RunsFromNameToBrace) };
    let last_is_a_token = tokens(rest).is_some_and(|without| without.len() + 1 == all.len());
    if new[0] != b'@' || !last_is_a_token {
        return Known::Fails(Premise::RunsFromNameToBrace);
    }
    let brace = all.iter().find(|token| token.kind == "{").map_or(new.len(), |brace| brace.place);
    let alone = model::check(&[&new[..brace], b"{.a:jmp .a;}"].concat()).said;
    match &alone {
        Said::Accepted { functions, .. } if functions.len() == 1 => {
            match header_of(&alone, &functions[0]) == header_of(before, replaced) {
                true => Known::Hold,
                false => Known::Fails(Premise::KeepsTheHeader),
            }
        }
        _ => Known::HeaderIsOpen,
    }
}

/// Name, types of the formals, result type.
fn header_of<'s>(said: &'s Said, function: &SaidFunction) -> (&'s str, Vec<Ty>, Ty) {
    let Said::Accepted { names, .. } = said else { panic!("refused: {said}") };
    let types = function.formals.iter().map(|formal| formal.ty).collect();
    (&names[function.name].spelling, types, function.result)
}

// ---- answers and readings ----------------------------------------------------------------------------------------------

/// "Accepts exactly when the whole edited text, read afresh, is accepted; otherwise both give the same number at the same
/// line and place." "Fresh places count from the replaced function's first byte."
pub fn is_same_verdict(alone: Verdict, fresh: Verdict, start: usize) -> bool {
    match alone.number {
        0 => fresh.number == 0,
        _ => fresh == Verdict { place: start as u32 + alone.place, ..alone },
    }
}

/// The same verdict, and the same reading. Messages aren't compared.
fn same_answer(said: &Said, fresh: &Said, number: usize, start: usize) -> Result<(), String> {
    let reads_alike = || match said {
        Said::Refused { .. } => true,
        Said::Accepted { functions, .. } => {
            let [function] = &functions[..] else { return false };
            let theirs = function_of(fresh, number);
            function.line == theirs.line && Reading::new(said, function) == Reading::new(fresh, theirs)
        }
    };
    let is_same = is_same_verdict(said.verdict(), fresh.verdict(), start) && reads_alike();
    if is_same { Ok(()) } else { Err(format!("recheck says {said}\n  a check of the edited text {fresh}")) }
}

/// "All others read as before, but for name numbers and moved lines and places": those behind the replaced function are
/// moved by as much as its closing brace.
fn others_as_before(before: &Said, fresh: &Said, number: usize) -> Result<(), String> {
    let (Said::Accepted { tokens, functions, .. }, Said::Accepted { tokens: their_tokens, functions: theirs, .. }) =
        (before, fresh)
    else {
        return Ok(());
    };
    if functions.len() != theirs.len() {
        return Err(format!("before there were {} functions, now {}", functions.len(), theirs.len()));
    }
    let (brace, their_brace) = (&tokens[functions[number].end_token], &their_tokens[theirs[number].end_token]);
    for (other, (function, theirs)) in functions.iter().zip(theirs).enumerate().filter(|(other, _)| *other != number) {
        let (line, place) = match other < number {
            true => (function.line, function.place),
            false => (function.line + their_brace.line - brace.line, function.place + their_brace.place - brace.place),
        };
        let is_same = (line, place) == (theirs.line, theirs.place)
            && Reading::new(before, function) == Reading::new(fresh, theirs);
        if !is_same {
            return Err(format!("another function was {function:?}\n  and is {theirs:?}"));
        }
    }
    Ok(())
}

/// "A function's reading is all that check writes for it from its name to its closing brace, compared by spelling, with
/// token numbers and starts of runs counted from its own first." Lines and places too are counted from its own, and names
/// are numbered as they appear in it. Function types keep their numbers.
#[derive(PartialEq)]
struct Reading<'s> {
    tokens: Vec<SaidToken>,
    spellings: Vec<&'s str>,
    function: SaidFunction,
}

impl<'s> Reading<'s> {
    fn new(said: &'s Said, function: &SaidFunction) -> Self {
        let Said::Accepted { tokens, names, .. } = said else { panic!("refused: {said}") };
        let tokens = &tokens[function.token..=function.end_token];
        let mut own = Own { names, numbers: Vec::new(), function };
        let tokens = tokens.iter().map(|token| own.token(token)).collect();
        let function = own.function();
        Self { tokens, spellings: own.numbers.iter().map(|&name| names[name].spelling.as_str()).collect(), function }
    }
}

/// A function's own numbers for what stands in it.
struct Own<'s> {
    names: &'s [SaidName],
    /// The names in the order in which the function's tokens have them.
    numbers: Vec<usize>,
    function: &'s SaidFunction,
}

impl Own<'_> {
    fn token(&mut self, token: &SaidToken) -> SaidToken {
        let is_name = ["local", "global", "label"].contains(&token.kind);
        let value = match token.value {
            Some(name) if is_name => Some(self.number_of_token(name as usize) as i64),
            value => value,
        };
        let (line, place) = (token.line - self.function.line, token.place - self.function.place);
        SaidToken { kind: token.kind, value, line, place }
    }

    fn number_of_token(&mut self, name: usize) -> usize {
        assert!(name < self.names.len(), "no name has the number {name}");
        if !self.numbers.contains(&name) {
            self.numbers.push(name);
        }
        self.name(name)
    }

    /// A name's own number: whatever a function names, a token of its own names.
    fn name(&self, name: usize) -> usize {
        self.numbers.iter().position(|known| *known == name).expect("a name that a token has")
    }

    fn index(&self, token: usize) -> usize {
        token - self.function.token
    }

    fn variable(&self, variable: SaidVariable) -> SaidVariable {
        SaidVariable { name: self.name(variable.name), ty: variable.ty }
    }

    fn function(&self) -> SaidFunction {
        let mut own = self.function.clone();
        own.name = self.name(own.name);
        own.end_token = self.index(own.end_token);
        own.end_place -= own.place;
        (own.token, own.line, own.place) = (0, 0, 0);
        own.formals.iter_mut().for_each(|formal| *formal = self.variable(*formal));
        own.labels.iter_mut().for_each(|label| *label = self.label(*label));
        let operations = own.blocks.iter_mut().flat_map(|block| &mut block.operations);
        operations.for_each(|operation| *operation = self.operation(operation));
        own
    }

    fn label(&self, label: SaidLabel) -> SaidLabel {
        SaidLabel { name: self.name(label.name), token: self.index(label.token), block: label.block }
    }

    fn operation(&self, operation: &SaidOperation) -> SaidOperation {
        SaidOperation {
            kind: operation.kind,
            token: self.index(operation.token),
            result: operation.result.map(|result| self.variable(result)),
            callee: operation.callee.map(|callee| self.variable(callee)),
            operands: operation.operands.iter().map(|operand| self.variable(*operand)).collect(),
            labels: operation.labels.iter().map(|label| self.name(*label)).collect(),
        }
    }
}

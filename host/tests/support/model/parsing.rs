//! "Functions, labels, edges".
use std::collections::HashMap;

use super::typing::Head;
use super::{ARGUMENTS, FORMALS, FUNCTIONS, LABELS, Stop, at};
use crate::support::said::{SaidBlock, SaidFunction, SaidLabel, SaidName, SaidOperation, SaidToken, SaidVariable, Ty};

const BINARY: [&str; 12] = ["add", "mul", "sub", "div", "mod", "eq", "lt", "gt", "le", "ge", "and", "or"];
const UNARY: [&str; 2] = ["id", "not"];
const CONSTANTS: [&str; 3] = ["true", "false", "integer"];

/// "A text is any number of functions." Operands have no types yet, and no `ret` is added.
pub fn functions(tokens: &[SaidToken], names: &[SaidName]) -> Result<Vec<SaidFunction>, Stop> {
    let mut parsing = Parsing { tokens, names, next: 0, headers: Headers::Entered(Entered::default()) };
    let mut functions = Vec::new();
    while !parsing.is("END_OF_FILE") {
        functions.push(parsing.function(functions.len())?);
    }
    Ok(functions)
}

/// Recheck: one function, whose header is to be kept. "after the closing brace, once this function's blocks and labels are
/// resolved (22, 14), another global is 40, any other token but the end 7"
pub fn one_function(tokens: &[SaidToken], names: &[SaidName], kept: &Kept<'_>) -> Result<Vec<SaidFunction>, Stop> {
    let mut parsing = Parsing { tokens, names, next: 0, headers: Headers::Kept(kept) };
    let function = parsing.function(0)?;
    if parsing.is("END_OF_FILE") {
        return Ok(vec![function]);
    }
    let (second, _) = parsing.global()?;
    parsing.stop_bare(second, 40, NOT_ONE_FUNCTION)
}

/// What 40 says, wherever it is found.
pub const NOT_ONE_FUNCTION: &str = "not one function.";

/// The header that recheck holds a function's to.
pub struct Kept<'t> {
    pub spelling: &'t [u8],
    pub head: &'t Head,
}

/// What a function's name is held to where it is entered.
enum Headers<'t> {
    Entered(Entered),
    Kept(&'t Kept<'t>),
}

/// The headers of a text, as far as it is read.
#[derive(Default)]
struct Entered {
    /// The function types, by their numbers: formals and result.
    types: Vec<(Vec<Ty>, Ty)>,
    /// The functions' names, with the numbers of their types.
    names: HashMap<usize, usize>,
}

impl Entered {
    /// A function type's number: equal types share one.
    fn type_number(&mut self, ty: (Vec<Ty>, Ty)) -> usize {
        self.types.iter().position(|known| *known == ty).unwrap_or_else(|| {
            self.types.push(ty);
            self.types.len() - 1
        })
    }
}

struct Parsing<'t> {
    tokens: &'t [SaidToken],
    names: &'t [SaidName],
    next: usize,
    headers: Headers<'t>,
}

impl Parsing<'_> {
    // ---- tokens ------------------------------------------------------------------------------------------------------

    fn is(&self, kind: &str) -> bool {
        self.tokens[self.next].kind == kind
    }

    fn try_take(&mut self, kinds: &[&str]) -> Option<usize> {
        let found = kinds.contains(&self.tokens[self.next].kind);
        found.then(|| {
            self.next += 1;
            self.next - 1
        })
    }

    /// A refusal at a token that the Rust reports with, which it shows in its own way: names by their numbers.
    fn stop_at<T>(&self, token: usize, number: u32, words: &str) -> Result<T, Stop> {
        let item = self.tokens[token].item();
        Err(Stop { number, token, item, words: words.to_owned() })
    }

    fn stop_here<T>(&self, number: u32, words: &str) -> Result<T, Stop> {
        self.stop_at(self.next, number, words)
    }

    /// A refusal that the Rust lacks: no ITEM.
    fn stop_bare<T>(&self, token: usize, number: u32, words: &str) -> Result<T, Stop> {
        Err(Stop { number, token, item: String::new(), words: words.to_owned() })
    }

    fn take(&mut self, kind: &str) -> Result<usize, Stop> {
        match self.try_take(&[kind]) {
            Some(token) => Ok(token),
            None => self.stop_here(5, &format!("'{kind}' expected.")),
        }
    }

    /// A name of a kind: its token and its number.
    fn take_name(&mut self, kind: &str, number: u32, words: &str) -> Result<(usize, usize), Stop> {
        match self.try_take(&[kind]) {
            Some(token) => Ok((token, self.tokens[token].value.expect("a name has a number") as usize)),
            None => self.stop_here(number, words),
        }
    }

    fn local(&mut self) -> Result<(usize, usize), Stop> {
        self.take_name("local", 6, "Local identifier expected.")
    }

    fn global(&mut self) -> Result<(usize, usize), Stop> {
        self.take_name("global", 7, "Global identifier expected.")
    }

    fn label(&mut self) -> Result<usize, Stop> {
        self.take_name("label", 8, "Label identifier expected.").map(|(_, name)| name)
    }

    fn ty(&mut self) -> Result<Ty, Stop> {
        if self.try_take(&["int"]).is_some() {
            return Ok(Ty::Int);
        }
        match self.try_take(&["bool"]) {
            Some(_) => Ok(Ty::Bool),
            None => self.stop_here(9, "Type expected."),
        }
    }

    // ---- functions ---------------------------------------------------------------------------------------------------

    fn function(&mut self, before: usize) -> Result<SaidFunction, Stop> {
        let (token, name) = self.global()?;
        // "35 comes once the name token is read."
        if before == FUNCTIONS {
            return self.stop_bare(token, 35, "too many functions.");
        }
        let formals = if self.try_take(&["("]).is_some() { self.formals()? } else { Vec::new() };
        let result = if self.try_take(&[":"]).is_some() { self.ty()? } else { Ty::Void };
        let type_number = self.enter(token, name, &formals, result)?;
        self.take("{")?;
        let (labels, mut blocks) = self.body()?;
        let end_token = self.take("}")?;
        self.link(token, &labels, &mut blocks)?;
        let named = &self.tokens[token];
        Ok(SaidFunction {
            token,
            name,
            line: named.line,
            place: named.place,
            length: self.names[name].spelling.len(),
            formals,
            result,
            type_number,
            labels,
            end_token,
            end_place: self.tokens[end_token].place,
            blocks,
        })
    }

    fn formals(&mut self) -> Result<Vec<SaidVariable>, Stop> {
        let mut formals = Vec::new();
        if !self.is(")") {
            loop {
                let (token, name) = self.local()?;
                if formals.len() == FORMALS {
                    return self.stop_bare(token, 36, "too many formals.");
                }
                self.take(":")?;
                formals.push(SaidVariable { name, ty: self.ty()? });
                if self.try_take(&[","]).is_none() {
                    break;
                }
            }
        }
        self.take(")")?;
        Ok(formals)
    }

    /// "The same name again with an equal type passes, with another is 15"; in recheck "41 where the name would be entered,
    /// if name or type differ". The function type's number.
    fn enter(&mut self, token: usize, name: usize, formals: &[SaidVariable], result: Ty) -> Result<usize, Stop> {
        let types: Vec<Ty> = formals.iter().map(|formal| formal.ty).collect();
        let spelling = &self.names[name].spelling;
        match &mut self.headers {
            Headers::Entered(entered) => {
                let number = entered.type_number((types, result));
                if *entered.names.entry(name).or_insert(number) == number {
                    return Ok(number);
                }
                let words = "Unexpected type 'fn'. Expected 'fn'.".to_owned();
                Err(Stop { number: 15, token, item: at(spelling), words })
            }
            Headers::Kept(Kept { spelling: kept, head }) => {
                if *kept == spelling.as_bytes() && head.formals == types && head.result == result {
                    return Ok(head.type_number);
                }
                self.stop_bare(token, 41, "header changed.")
            }
        }
    }

    // ---- bodies ------------------------------------------------------------------------------------------------------

    fn body(&mut self) -> Result<(Vec<SaidLabel>, Vec<SaidBlock>), Stop> {
        let mut labels: Vec<SaidLabel> = Vec::new();
        let mut blocks = vec![SaidBlock::default()];
        while !self.is("}") {
            while self.is("label") {
                self.label_definition(&mut labels, &mut blocks)?;
            }
            let operation = self.operation()?;
            let block = blocks.last_mut().expect("there is one");
            // "An operation after a terminator in the same block is 12, found once it is parsed."
            if block.operations.last().is_some_and(SaidOperation::is_terminator) {
                return self.stop_at(operation.token, 12, "Basic block must start with a label.");
            }
            block.operations.push(operation);
        }
        Ok((labels, blocks))
    }

    /// "A label before the first operation names block 0. Any later label opens a new block."
    fn label_definition(&mut self, labels: &mut Vec<SaidLabel>, blocks: &mut Vec<SaidBlock>) -> Result<(), Stop> {
        let token = self.next;
        let name = self.label()?;
        self.take(":")?;
        if labels.len() == LABELS {
            return self.stop_bare(token, 38, "too many labels.");
        }
        if labels.iter().any(|label| label.name == name) {
            let (item, words) = (at(&self.names[name].spelling), "Duplicate label found.".to_owned());
            return Err(Stop { number: 13, token, item, words });
        }
        if !blocks[0].operations.is_empty() {
            blocks.push(SaidBlock::default());
        }
        labels.push(SaidLabel { name, token, block: blocks.len() - 1 });
        Ok(())
    }

    fn operation(&mut self) -> Result<SaidOperation, Stop> {
        if let Some(token) = self.try_take(&["print"]) {
            let (_, operand) = self.local()?;
            return self.ended(SaidOperation::new("print", token).with_operands(&[operand]));
        }
        if let Some(token) = self.try_take(&["ret"]) {
            let ret = SaidOperation::new("ret", token);
            if self.try_take(&[";"]).is_some() {
                return Ok(ret);
            }
            let (_, operand) = self.local()?;
            return self.ended(ret.with_operands(&[operand]));
        }
        if let Some(token) = self.try_take(&["jmp"]) {
            let label = self.label()?;
            return self.ended(SaidOperation { labels: vec![label], ..SaidOperation::new("jmp", token) });
        }
        if let Some(token) = self.try_take(&["br"]) {
            let (_, condition) = self.local()?;
            let labels = vec![self.label()?, self.label()?];
            return self.ended(SaidOperation { labels, ..SaidOperation::new("br", token) }.with_operands(&[condition]));
        }
        if let Some(token) = self.try_take(&["nop"]) {
            return self.ended(SaidOperation::new("nop", token));
        }
        if let Some(token) = self.try_take(&["call"]) {
            return self.call(token, None);
        }
        let (_, name) = self.local()?;
        self.take(":")?;
        let result = SaidVariable { name, ty: self.ty()? };
        self.take("=")?;
        self.definition(result)
    }

    /// What stands after `x: int =`.
    fn definition(&mut self, result: SaidVariable) -> Result<SaidOperation, Stop> {
        let result = Some(result);
        if let Some(token) = self.try_take(&["call"]) {
            return self.call(token, result);
        }
        if let Some(word) = self.try_take(&["const"]) {
            return match self.try_take(&CONSTANTS) {
                Some(token) => self.ended(SaidOperation { result, ..SaidOperation::new("const", token) }),
                None => self.stop_at(word, 10, "Integer or boolean constant expected."),
            };
        }
        if let Some(token) = self.try_take(&UNARY) {
            let (_, operand) = self.local()?;
            return self
                .ended(SaidOperation { result, ..SaidOperation::new("unary", token) }.with_operands(&[operand]));
        }
        if let Some(token) = self.try_take(&BINARY) {
            let ((_, left), (_, right)) = (self.local()?, self.local()?);
            let binary = SaidOperation { result, ..SaidOperation::new("binary", token) };
            return self.ended(binary.with_operands(&[left, right]));
        }
        self.stop_here(11, "Unexpected token.")
    }

    fn call(&mut self, token: usize, result: Option<SaidVariable>) -> Result<SaidOperation, Stop> {
        let (_, callee) = self.global()?;
        let mut arguments = Vec::new();
        while !self.is(";") {
            let (local, name) = self.local()?;
            if arguments.len() == ARGUMENTS {
                return self.stop_bare(local, 37, "too many arguments.");
            }
            arguments.push(name);
        }
        let callee = Some(SaidVariable { name: callee, ty: Ty::Placeholder });
        self.ended(SaidOperation { result, callee, ..SaidOperation::new("call", token) }.with_operands(&arguments))
    }

    fn ended(&mut self, operation: SaidOperation) -> Result<SaidOperation, Stop> {
        self.take(";")?;
        Ok(operation)
    }

    // ---- edges -------------------------------------------------------------------------------------------------------

    /// "Blocks are taken in order; an empty block gives 22, a terminator's labels are resolved first then second (14)."
    fn link(&self, function: usize, labels: &[SaidLabel], blocks: &mut [SaidBlock]) -> Result<(), Stop> {
        for from in 0..blocks.len() {
            let Some(last) = blocks[from].operations.last().cloned() else {
                return self.stop_bare(function, 22, "empty block.");
            };
            for target in last.labels {
                let Some(label) = labels.iter().find(|label| label.name == target) else {
                    let words = format!("Branch target '{}' is missing", self.names[target].spelling);
                    return self.stop_bare(last.token, 14, &words);
                };
                blocks[from].successors.push(label.block);
                blocks[label.block].predecessors.push(from);
            }
        }
        for block in blocks.iter_mut().skip(1) {
            block.is_dead = block.predecessors.is_empty();
        }
        Ok(())
    }
}

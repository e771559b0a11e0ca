//! "Typing".
use std::collections::HashMap;

use super::{Stop, at};
use crate::support::said::{SaidBlock, SaidFunction, SaidName, SaidOperation, SaidToken, SaidVariable, Ty};

/// A function as a call sees it.
#[derive(Clone)]
pub struct Head {
    pub type_number: usize,
    pub formals: Vec<Ty>,
    pub result: Ty,
}

/// What each global may be called as, by its number.
pub type Heads = HashMap<usize, Head>;

/// The heads of a text's own functions.
pub fn heads_of(functions: &[SaidFunction]) -> Heads {
    let head = |function: &SaidFunction| {
        let formals = function.formals.iter().map(|formal| formal.ty).collect();
        Head { type_number: function.type_number, formals, result: function.result }
    };
    // Of several functions of one name all have the same type.
    functions.iter().map(|function| (function.name, head(function))).collect()
}

/// "Functions are taken in text order." Says on the way whether it came to blocks whose order the Rust leaves open.
pub fn all(
    mut functions: Vec<SaidFunction>,
    heads: &Heads,
    tokens: &[SaidToken],
    names: &[SaidName],
    order_is_open: &mut bool,
) -> Result<Vec<SaidFunction>, Stop> {
    for function in &mut functions {
        let mut typing = Typing { tokens, names, heads, result: function.result, known: HashMap::new() };
        for formal in &function.formals {
            typing.enter(function.token, *formal)?;
        }
        let (met, count) = (walk(&function.blocks), function.blocks.len());
        let fixed = if met.len() < count { met.len() - 1 } else { count };
        for (place, number) in order(met, count).into_iter().enumerate() {
            *order_is_open |= place >= fixed;
            typing.block(&mut function.blocks[number])?;
        }
    }
    Ok(functions)
}

/// "Walk depth first from block 0, last successor first; number blocks as the walk leaves them; highest first."
fn walk(blocks: &[SaidBlock]) -> Vec<usize> {
    fn visit(blocks: &[SaidBlock], block: usize, met: &mut [bool], left: &mut Vec<usize>) {
        met[block] = true;
        for &next in blocks[block].successors.iter().rev() {
            if !met[next] {
                visit(blocks, next, met, left);
            }
        }
        left.push(block);
    }
    let mut left = Vec::new();
    visit(blocks, 0, &mut vec![false; blocks.len()], &mut left);
    left.reverse();
    left
}

/// "Blocks the walk never meets follow by rising block number."
fn order(met: Vec<usize>, count: usize) -> Vec<usize> {
    let others: Vec<usize> = (0..count).filter(|block| !met.contains(block)).collect();
    [met, others].concat()
}

struct Typing<'t> {
    tokens: &'t [SaidToken],
    names: &'t [SaidName],
    heads: &'t Heads,
    result: Ty,
    known: HashMap<usize, Ty>,
}

impl Typing<'_> {
    fn stop<T>(&self, token: usize, number: u32, words: &str) -> Result<T, Stop> {
        Err(Stop { number, token, item: self.tokens[token].item(), words: words.to_owned() })
    }

    fn stop_of_name<T>(&self, token: usize, name: usize, number: u32, words: &str) -> Result<T, Stop> {
        Err(Stop { number, token, item: at(&self.names[name].spelling), words: words.to_owned() })
    }

    /// "Entering a name with another type is 15."
    fn enter(&mut self, token: usize, variable: SaidVariable) -> Result<(), Stop> {
        let (found, held) = (variable.ty, *self.known.entry(variable.name).or_insert(variable.ty));
        if found == held {
            return Ok(());
        }
        let words = format!("Unexpected type '{}'. Expected '{}'.", found.word(), held.word());
        self.stop_of_name(token, variable.name, 15, &words)
    }

    /// "Reading one absent is 16."
    fn look_up(&self, token: usize, name: usize) -> Result<Ty, Stop> {
        match self.known.get(&name) {
            Some(ty) => Ok(*ty),
            None => self.stop_of_name(token, name, 16, "Undefined identifier."),
        }
    }

    fn compare(&self, token: usize, found: Ty, expected: Ty) -> Result<(), Stop> {
        if found == expected {
            return Ok(());
        }
        self.stop(token, 17, &format!("'{}' type expected; '{}' found", expected.word(), found.word()))
    }

    fn block(&mut self, block: &mut SaidBlock) -> Result<(), Stop> {
        for operation in &mut block.operations {
            self.operation(operation)?;
        }
        let last = block.operations.last().expect("no block is empty");
        let token = last.token;
        if last.is_terminator() {
            return Ok(());
        }
        if self.result != Ty::Void {
            return self.stop(token, 21, "Block terminator expected to be jump, br, or ret.");
        }
        block.operations.push(SaidOperation::new("ret", token));
        Ok(())
    }

    fn operation(&mut self, operation: &mut SaidOperation) -> Result<(), Stop> {
        let token = operation.token;
        match (operation.kind, operation.result) {
            ("binary", Some(result)) => {
                self.look_up_all(token, &mut operation.operands)?;
                let (left, right) = (operation.operands[0].ty, operation.operands[1].ty);
                self.enter(token, result)?;
                self.binary(token, result.ty, left, right)
            }
            ("unary", Some(result)) => {
                self.look_up_all(token, &mut operation.operands)?;
                let operand = operation.operands[0].ty;
                self.enter(token, result)?;
                if self.tokens[token].kind == "id" {
                    self.compare(token, operand, result.ty)
                } else {
                    self.compare(token, result.ty, Ty::Bool)?;
                    self.compare(token, operand, Ty::Bool)
                }
            }
            ("const", Some(result)) => {
                let ty = if self.tokens[token].kind == "integer" { Ty::Int } else { Ty::Bool };
                self.compare(token, ty, result.ty)?;
                self.enter(token, result)
            }
            ("call", _) => self.call(operation),
            ("ret", _) => self.ret(operation),
            _ => Ok(()),
        }
    }

    fn look_up_all(&self, token: usize, operands: &mut [SaidVariable]) -> Result<(), Stop> {
        for operand in operands {
            operand.ty = self.look_up(token, operand.name)?;
        }
        Ok(())
    }

    /// "Result type, left, right compared. `eq`: right against left, then result."
    fn binary(&self, token: usize, result: Ty, left: Ty, right: Ty) -> Result<(), Stop> {
        let (of_result, of_operands) = match self.tokens[token].kind {
            "eq" => {
                self.compare(token, right, left)?;
                return self.compare(token, result, Ty::Bool);
            }
            "add" | "mul" | "sub" | "div" | "mod" => (Ty::Int, Ty::Int),
            "and" | "or" => (Ty::Bool, Ty::Bool),
            _ => (Ty::Bool, Ty::Int),
        };
        self.compare(token, result, of_result)?;
        self.compare(token, left, of_operands)?;
        self.compare(token, right, of_operands)
    }

    /// "So the result is entered before the arguments."
    fn call(&mut self, operation: &mut SaidOperation) -> Result<(), Stop> {
        let token = operation.token;
        let callee = operation.callee.as_mut().expect("a call has a callee");
        let Some(head) = self.heads.get(&callee.name) else {
            return self.stop_of_name(token, callee.name, 16, "Undefined identifier.");
        };
        callee.ty = Ty::Fn(head.type_number);
        match operation.result {
            Some(_) if head.result == Ty::Void => return self.stop(token, 18, VOID),
            Some(result) => {
                self.compare(token, result.ty, head.result)?;
                self.enter(token, result)?;
            }
            None if head.result != Ty::Void => return self.stop(token, 19, NOT_VOID),
            None => {}
        }
        let (expected, found) = (head.formals.len(), operation.operands.len());
        if expected != found {
            return self.stop(token, 20, &format!("{expected} arguments expected, got {found}"));
        }
        self.look_up_all(token, &mut operation.operands)?;
        let mut arguments = operation.operands.iter().zip(&head.formals);
        arguments.try_for_each(|(argument, formal)| self.compare(token, argument.ty, *formal))
    }

    /// "`ret x`: x looked up, void 18, type. `ret`: 19." The operand that is kept has no type.
    fn ret(&self, operation: &SaidOperation) -> Result<(), Stop> {
        let token = operation.token;
        match operation.operands.first() {
            Some(value) => {
                let found = self.look_up(token, value.name)?;
                if self.result == Ty::Void {
                    return self.stop(token, 18, VOID);
                }
                self.compare(token, found, self.result)
            }
            None if self.result != Ty::Void => self.stop(token, 19, NOT_VOID),
            None => Ok(()),
        }
    }
}

const VOID: &str = "Void functions cannot return a value.";
const NOT_VOID: &str = "Non-void functions must return a value.";

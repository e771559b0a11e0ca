//! Functions, blocks and operations as lines that a person reads.
use std::fmt::Write;

use pitchsleet::{Block, Function, Operation, OperationValue, Type, Unit, Variable};

/// A function's first line: `@least(a: int, b: int): int`.
pub fn header(unit: &Unit<'_, '_>, function: &Function<'_, '_>) -> String {
    let mut line = function.name().spelling.to_owned();
    let formals = function.formals().map(|formal| format!("{}: {}", unit.spelling(formal.name), formal.ty));
    let formals: Vec<String> = formals.collect();
    if !formals.is_empty() {
        push(&mut line, format_args!("({})", formals.join(", ")));
    }
    if function.result() != Type::Void {
        push(&mut line, format_args!(": {}", function.result()));
    }
    line
}

/// A block's number, and the labels that name it: `block 1 .then`.
pub fn block_name(unit: &Unit<'_, '_>, block: &Block<'_, '_>) -> String {
    let mut name = format!("block {}", block.number());
    for label in block.labels() {
        push(&mut name, format_args!(" {}", unit.spelling(label.name)));
    }
    name
}

/// A block's name, and then its operations.
pub fn block_lines(unit: &Unit<'_, '_>, block: &Block<'_, '_>) -> impl Iterator<Item = String> {
    let operations = block.operations().map(|one| operation(unit, &one));
    [block_name(unit, block)].into_iter().chain(operations)
}

/// An operation, with the types that are kept: `less:bool = lt a:int b:int`.
pub fn operation(unit: &Unit<'_, '_>, operation: &Operation<'_>) -> String {
    let mut line = String::new();
    if let Some(result) = operation.result() {
        push(&mut line, format_args!("{} = ", typed(unit, result)));
    }
    line.push_str(&word(operation));
    if let Some(callee) = operation.callee() {
        push(&mut line, format_args!(" {}", unit.spelling(callee.name)));
    }
    for operand in operation.operands() {
        push(&mut line, format_args!(" {}", typed(unit, operand)));
    }
    for label in operation.labels() {
        push(&mut line, format_args!(" {}", unit.spelling(label)));
    }
    if operation.is_added() {
        line.push_str(" (added)");
    }
    line
}

/// An operation's word, and of a constant the value.
fn word(operation: &Operation<'_>) -> String {
    match operation.value {
        OperationValue::Binary { operator, .. } => operator.word().to_owned(),
        OperationValue::Unary { operator, .. } => operator.word().to_owned(),
        OperationValue::Const { value, .. } => format!("const {value}"),
        _ => operation.kind().to_owned(),
    }
}

fn typed(unit: &Unit<'_, '_>, variable: Variable) -> String {
    let name = unit.spelling(variable.name);
    match variable.ty {
        Type::Placeholder => name.to_owned(),
        ty => format!("{name}:{ty}"),
    }
}

pub fn push(line: &mut String, what: std::fmt::Arguments<'_>) {
    line.write_fmt(what).expect("a String takes all");
}

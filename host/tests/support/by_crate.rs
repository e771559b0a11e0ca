//! What this crate says of a text, by its safe interface.
use pitchsleet::{
    Block, Function, Headers, Label, Name, Operation, Reader, Refusal, Token, TokenValue, Tokens, Type, Unit, Variable,
};

use super::said::{Said, SaidBlock, SaidFunction, SaidLabel, SaidName, SaidOperation, SaidToken, SaidVariable, Ty};

/// What this crate says of a text that is read.
pub fn by_reader(reader: &mut Reader, text: &[u8]) -> Said {
    match reader.read(text) {
        Err(refusal) => refused(&refusal),
        Ok(tokens) => accepted(&tokens, Vec::new()),
    }
}

/// What this crate says of a text that is checked.
pub fn by_checker(reader: &mut Reader, text: &[u8]) -> Said {
    of_unit(reader.check(text))
}

/// What this crate says of a text that is rechecked.
pub fn by_rechecker(reader: &mut Reader, headers: &Headers, number: usize, new: &[u8]) -> Said {
    of_unit(reader.recheck(headers, number, new))
}

fn of_unit(answer: Result<Unit<'_, '_>, Refusal>) -> Said {
    match answer {
        Err(refusal) => refused(&refusal),
        Ok(unit) => accepted(&unit.tokens(), unit.functions().map(|function| said_function(&function)).collect()),
    }
}

fn refused(refusal: &Refusal) -> Said {
    Said::Refused {
        number: refusal.number(),
        line: refusal.line(),
        place: refusal.place(),
        message: refusal.message().to_vec(),
    }
}

fn accepted(tokens: &Tokens<'_, '_>, functions: Vec<SaidFunction>) -> Said {
    Said::Accepted {
        tokens: tokens.iter().map(said_token).collect(),
        names: tokens.names().map(said_name).collect(),
        functions,
    }
}

fn said_token(token: Token<'_>) -> SaidToken {
    let value = match token.value {
        TokenValue::Integer(number) => Some(i64::from(number)),
        value => value.identifier().map(|name| name.0 as i64),
    };
    SaidToken { kind: token.value.kind(), value, line: token.line, place: token.place }
}

fn said_name(name: Name<'_>) -> SaidName {
    SaidName { place: name.place, spelling: name.spelling.to_owned() }
}

fn said_function(function: &Function<'_, '_>) -> SaidFunction {
    let Type::Fn(type_number) = function.ty() else { panic!("a function has a function type") };
    SaidFunction {
        token: function.token(),
        name: function.name().identifier.0,
        line: function.line(),
        place: function.place(),
        length: function.name().spelling.len(),
        formals: function.formals().map(said_variable).collect(),
        result: said_type(function.result()),
        type_number,
        labels: function.labels().map(said_label).collect(),
        end_token: function.end_token(),
        end_place: function.end_place(),
        blocks: function.blocks().map(|block| said_block(&block)).collect(),
    }
}

fn said_label(label: Label) -> SaidLabel {
    SaidLabel { name: label.name.0, token: label.token, block: label.block }
}

fn said_block(block: &Block<'_, '_>) -> SaidBlock {
    SaidBlock {
        operations: block.operations().map(|operation| said_operation(&operation)).collect(),
        successors: block.successors().to_vec(),
        predecessors: block.predecessors().to_vec(),
        is_dead: block.is_dead(),
    }
}

fn said_operation(operation: &Operation<'_>) -> SaidOperation {
    SaidOperation {
        kind: operation.kind(),
        token: operation.token,
        result: operation.result().map(said_variable),
        callee: operation.callee().map(said_variable),
        operands: operation.operands().map(said_variable).collect(),
        labels: operation.labels().map(|label| label.0).collect(),
    }
}

fn said_variable(variable: Variable) -> SaidVariable {
    SaidVariable { name: variable.name.0, ty: said_type(variable.ty) }
}

fn said_type(ty: Type) -> Ty {
    match ty {
        Type::Placeholder => Ty::Placeholder,
        Type::Int => Ty::Int,
        Type::Bool => Ty::Bool,
        Type::Void => Ty::Void,
        Type::Fn(number) => Ty::Fn(number),
    }
}

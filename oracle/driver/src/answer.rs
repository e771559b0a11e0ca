//! The Rust's answer to one text, as a line of JSON.
//!
//! Refused by the lexer:  `{"stage":"lex","message":M}`
//! Read alone:            `{"stage":"read","tokens":T,"names":N}`
//! Refused by the parser: `{"stage":"parse","message":M,"tokens":T,"names":N}`
//! Accepted:              `{"stage":"accepted","functions":F,"tokens":T,"names":N}`
//! A panic, which the parser has on an empty block: `{"panic":true,"message":M,"tokens":T,"names":N}`
//!
//! A token is `[kind, value, line]`: the kind is `local`, `global`, `label`, `integer` or the token's own text; the value
//! is the name's number, the integer, or null.
use std::panic::{AssertUnwindSafe, catch_unwind};

use analysis::cfg::{CfgBlock, ControlFlowGraph};
use bril_lib::ir::{Cfg, Operation, Type, Unit, Variable};
use bril_lib::lexer::{LexResult, Lexer, Location, Token, TokenValue};
use bril_lib::parser::Parser;
use utils::DiagnosticEmitter;

use crate::json::{list, put, quote};

/// How far a text is taken.
#[derive(Clone, Copy, PartialEq, Eq)]
pub enum Depth {
    Read,
    Check,
}

/// The answer to bytes. Those that are no UTF-8 can't be a `&str`: they become U+FFFD, which is no ASCII either, so the
/// refusal is the same.
pub fn answer(text: &[u8], depth: Depth) -> String {
    let text = String::from_utf8_lossy(text);
    catch_unwind(AssertUnwindSafe(|| pipeline(&text, depth)))
        .unwrap_or_else(|_| "{\"panic\":true,\"stage\":\"lex\"}".to_owned())
}

/// Lexing, and where nothing was reported, parsing and typing: as a pipeline must call the two.
fn pipeline(text: &str, depth: Depth) -> String {
    let mut out = String::new();
    let mut diagnostics = DiagnosticEmitter::log_to_buffer();
    let lexed = Lexer::new(text, &mut diagnostics).lex_all();
    if let Some(message) = reported(&diagnostics) {
        out.push_str("{\"stage\":\"lex\",\"message\":");
        quote(&mut out, &message);
        out.push('}');
        return out;
    }
    match depth {
        Depth::Read => out.push_str("{\"stage\":\"read\""),
        Depth::Check => checked(&mut out, lexed.clone(), &mut diagnostics),
    }
    out.push_str(",\"tokens\":");
    list(&mut out, &lexed.tokens, token);
    out.push_str(",\"names\":");
    list(&mut out, &lexed.identifiers.0, |out, name| quote(out, name));
    out.push('}');
    out
}

fn checked(out: &mut String, lexed: LexResult, diagnostics: &mut DiagnosticEmitter) {
    let parsed = catch_unwind(AssertUnwindSafe(|| Parser::new(lexed, diagnostics).parse()));
    let message = reported(diagnostics);
    match (parsed, message) {
        (Err(_), message) => {
            out.push_str("{\"panic\":true,\"message\":");
            quote(out, &message.unwrap_or_default());
        }
        (Ok(_), Some(message)) => {
            out.push_str("{\"stage\":\"parse\",\"message\":");
            quote(out, &message);
        }
        (Ok(Some(read)), None) => {
            out.push_str("{\"stage\":\"accepted\",\"functions\":");
            unit(out, &read);
        }
        // Refused without a word: the Rust never does it, and a comparison must see it if it did.
        (Ok(None), None) => out.push_str("{\"silent\":true"),
    }
}

fn reported(diagnostics: &DiagnosticEmitter) -> Option<String> {
    diagnostics
        .err_buffer()
        .filter(|message| !message.is_empty())
}

fn token(out: &mut String, token: &Token) {
    out.push('[');
    match token.value {
        TokenValue::Local(i) => put(out, format_args!("\"local\",{}", i.0)),
        TokenValue::Global(i) => put(out, format_args!("\"global\",{}", i.0)),
        TokenValue::Label(i) => put(out, format_args!("\"label\",{}", i.0)),
        TokenValue::Integer(i) => put(out, format_args!("\"integer\",{i}")),
        _ => {
            quote(out, &token.to_string());
            out.push_str(",null");
        }
    }
    put(out, format_args!(",{}]", token.line_num.0));
}

// ---- functions -------------------------------------------------------------------------------------------------------

fn unit(out: &mut String, unit: &Unit) {
    list(out, &unit.functions, |out, cfg| function(out, unit, cfg));
}

fn function(out: &mut String, unit: &Unit, cfg: &Cfg) {
    let mut quiet = DiagnosticEmitter::log_to_buffer();
    let name = cfg.get_function();
    let own = unit
        .globals
        .get(&mut quiet, &unit.identifiers, Location(0), name)
        .expect("a function's name has been entered");
    let declared = cfg.get_type(unit);
    put(
        out,
        format_args!(
            "{{\"name\":{},\"line\":{},\"fn\":\"{}\",\"ret\":\"{}\",\"types\":",
            name.0,
            cfg.get_function_token().line_num.0,
            type_word(own.ty),
            type_word(declared.ret)
        ),
    );
    list(out, &declared.formals, |out, formal| {
        put(out, format_args!("\"{}\"", type_word(*formal)))
    });
    out.push_str(",\"formals\":");
    list(out, cfg.get_formals(), variable);
    out.push_str(",\"blocks\":");
    list(out, cfg.blocks(), block);
    out.push('}');
}

fn block(out: &mut String, block: &impl CfgBlock<Operation = Operation>) {
    out.push_str("{\"succs\":");
    list(out, block.successors(), number);
    out.push_str(",\"preds\":");
    list(out, block.predecessors(), number);
    out.push_str(",\"ops\":");
    list(out, block.operations(), operation);
    out.push('}');
}

fn operation(out: &mut String, operation: &Operation) {
    let (kind, callee, operands, labels) = match operation {
        Operation::BinaryOp { lhs, rhs, .. } => ("binary", None, vec![*lhs, *rhs], vec![]),
        Operation::UnaryOp { operand, .. } => ("unary", None, vec![*operand], vec![]),
        Operation::Jump(_, label) => ("jmp", None, vec![], vec![label.0]),
        Operation::Branch {
            cond, then, els, ..
        } => ("br", None, vec![*cond], vec![then.0, els.0]),
        Operation::Call { callee, args, .. } => ("call", Some(*callee), args.clone(), vec![]),
        Operation::Ret(_, value) => ("ret", None, value.iter().copied().collect(), vec![]),
        Operation::Print(_, value) => ("print", None, vec![*value], vec![]),
        Operation::Nop(_) => ("nop", None, vec![], vec![]),
        Operation::Const(_, _) => ("const", None, vec![], vec![]),
    };
    let token = operation.get_token();
    put(out, format_args!("{{\"kind\":\"{kind}\",\"token\":["));
    quote(out, &token.to_string());
    put(out, format_args!(",{}],\"result\":", token.line_num.0));
    optional(out, operation.get_result());
    out.push_str(",\"callee\":");
    optional(out, callee);
    out.push_str(",\"operands\":");
    list(out, &operands, variable);
    out.push_str(",\"labels\":");
    list(out, &labels, number);
    out.push('}');
}

fn optional(out: &mut String, value: Option<Variable>) {
    match value {
        Some(value) => variable(out, &value),
        None => out.push_str("null"),
    }
}

fn variable(out: &mut String, variable: &Variable) {
    put(
        out,
        format_args!("[{},\"{}\"]", variable.id.0, type_word(variable.ty)),
    );
}

fn number(out: &mut String, number: &usize) {
    put(out, format_args!("{number}"));
}

fn type_word(ty: Type) -> String {
    match ty {
        Type::Fn(i) => format!("{ty} {i}"),
        _ => ty.to_string(),
    }
}

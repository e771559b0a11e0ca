//! What generated programs are written with: types, operators, tokens.

#[derive(Clone, Copy, PartialEq, Eq)]
pub enum Type {
    Int,
    Bool,
}

impl Type {
    pub fn word(self) -> &'static str {
        match self {
            Self::Int => "int",
            Self::Bool => "bool",
        }
    }

    pub fn other(self) -> Self {
        match self {
            Self::Int => Self::Bool,
            Self::Bool => Self::Int,
        }
    }
}

pub const ARITHMETIC: [&str; 5] = ["add", "mul", "sub", "div", "mod"];
pub const COMPARISONS: [&str; 5] = ["eq", "lt", "gt", "le", "ge"];

pub fn push(tokens: &mut Vec<String>, spellings: &[&str]) {
    tokens.extend(spellings.iter().map(|spelling| (*spelling).to_owned()));
}

/// Formals, with a parenthesis before them and none behind.
pub fn push_formals(tokens: &mut Vec<String>, formals: &[(&'static str, Type)]) {
    for (i, (name, ty)) in formals.iter().enumerate() {
        push(tokens, &[if i == 0 { "(" } else { "," }, name, ":", ty.word()]);
    }
}

pub fn push_result(tokens: &mut Vec<String>, result: Option<Type>) {
    if let Some(result) = result {
        push(tokens, &[":", result.word()]);
    }
}

/// An operation whose result gets a name.
pub fn push_definition(tokens: &mut Vec<String>, name: &str, ty: Type, operation: &[&str]) {
    push(tokens, &[name, ":", ty.word(), "="]);
    push(tokens, operation);
    push(tokens, &[";"]);
}

//! What a side says of a text, in one form for all sides.
use std::fmt::{self, Display, Formatter};

#[derive(Clone, Debug, PartialEq, Eq)]
pub enum Said {
    /// Where a text is read and no more, there are no functions.
    Accepted {
        tokens: Vec<SaidToken>,
        names: Vec<SaidName>,
        functions: Vec<SaidFunction>,
    },
    Refused {
        number: u32,
        line: u32,
        place: usize,
        message: Vec<u8>,
    },
}

#[derive(Clone, Debug, PartialEq, Eq)]
pub struct SaidToken {
    /// `local`, `global`, `label`, `integer`, `END_OF_FILE`, or the token's own text.
    pub kind: &'static str,
    /// A name's number, or the integer.
    pub value: Option<i64>,
    pub line: u32,
    pub place: usize,
}

impl SaidToken {
    /// How the Rust shows a token that it reports with: names by their numbers.
    pub fn shown(&self) -> String {
        match (self.kind, self.value) {
            ("integer", Some(value)) => value.to_string(),
            (kind, Some(name)) => format!("{kind}_{name}"),
            (kind, None) => kind.to_owned(),
        }
    }

    /// What stands in a message for the token: its ITEM.
    pub fn item(&self) -> String {
        match self.kind {
            "END_OF_FILE" => "at end of file".to_owned(),
            _ => format!("at '{}'", self.shown()),
        }
    }
}

#[derive(Clone, Debug, PartialEq, Eq)]
pub struct SaidName {
    pub place: usize,
    pub spelling: String,
}

#[derive(Clone, Debug, PartialEq, Eq)]
pub struct SaidFunction {
    pub token: usize,
    pub name: usize,
    pub line: u32,
    pub place: usize,
    pub length: usize,
    pub formals: Vec<SaidVariable>,
    pub result: Ty,
    pub type_number: usize,
    pub labels: Vec<SaidLabel>,
    pub end_token: usize,
    pub end_place: usize,
    pub blocks: Vec<SaidBlock>,
}

#[derive(Clone, Copy, Debug, PartialEq, Eq)]
pub struct SaidLabel {
    pub name: usize,
    pub token: usize,
    pub block: usize,
}

#[derive(Clone, Debug, Default, PartialEq, Eq)]
pub struct SaidBlock {
    pub operations: Vec<SaidOperation>,
    pub successors: Vec<usize>,
    pub predecessors: Vec<usize>,
    pub is_dead: bool,
}

#[derive(Clone, Debug, PartialEq, Eq)]
pub struct SaidOperation {
    /// `binary`, `unary`, `const`, `jmp`, `br`, `call`, `ret`, `print` or `nop`.
    pub kind: &'static str,
    pub token: usize,
    pub result: Option<SaidVariable>,
    pub callee: Option<SaidVariable>,
    pub operands: Vec<SaidVariable>,
    pub labels: Vec<usize>,
}

impl SaidOperation {
    pub fn new(kind: &'static str, token: usize) -> Self {
        Self { kind, token, result: None, callee: None, operands: Vec::new(), labels: Vec::new() }
    }

    /// Operands without types.
    pub fn with_operands(self, names: &[usize]) -> Self {
        let operands = names.iter().map(|&name| SaidVariable { name, ty: Ty::Placeholder }).collect();
        Self { operands, ..self }
    }

    pub fn is_terminator(&self) -> bool {
        ["jmp", "br", "ret"].contains(&self.kind)
    }
}

#[derive(Clone, Copy, Debug, PartialEq, Eq)]
pub struct SaidVariable {
    pub name: usize,
    pub ty: Ty,
}

#[derive(Clone, Copy, Debug, PartialEq, Eq)]
pub enum Ty {
    Placeholder,
    Int,
    Bool,
    Void,
    Fn(usize),
}

impl Ty {
    /// The word that messages have.
    pub fn word(self) -> &'static str {
        match self {
            Self::Placeholder => "placeholder",
            Self::Int => "int",
            Self::Bool => "bool",
            Self::Void => "void",
            Self::Fn(_) => "fn",
        }
    }

    /// The word that JSON has: a function type with its number.
    pub fn long_word(self) -> String {
        match self {
            Self::Fn(number) => format!("fn {number}"),
            other => other.word().to_owned(),
        }
    }
}

/// Number, line and place of an answer: of an accepted text all 0.
#[derive(Clone, Copy, Debug, Default, PartialEq, Eq)]
pub struct Verdict {
    pub number: u32,
    pub line: u32,
    pub place: u32,
}

impl Display for Verdict {
    fn fmt(&self, f: &mut Formatter<'_>) -> fmt::Result {
        let Self { number, line, place } = self;
        match number {
            0 => write!(f, "accepted"),
            _ => write!(f, "{number}, line {line}, place {place}"),
        }
    }
}

impl Said {
    pub fn verdict(&self) -> Verdict {
        match self {
            Self::Accepted { .. } => Verdict::default(),
            Self::Refused { number, line, place, .. } => Verdict { number: *number, line: *line, place: *place as u32 },
        }
    }

    /// 0 for an accepted text, else the refusal's number.
    pub fn number(&self) -> u32 {
        self.verdict().number
    }

    /// The message of a refusal; an accepted text has none.
    pub fn message(&self) -> &[u8] {
        match self {
            Self::Accepted { .. } => &[],
            Self::Refused { message, .. } => message,
        }
    }
}

/// On one line, for a person who looks for a difference.
impl Display for Said {
    fn fmt(&self, f: &mut Formatter<'_>) -> fmt::Result {
        match self {
            Self::Refused { number, line, place, message } => {
                write!(f, "{number}, line {line}, place {place}, {}", message.escape_ascii())
            }
            Self::Accepted { tokens, names, functions } => {
                write!(f, "accepted:")?;
                tokens.iter().try_for_each(|t| write!(f, " {}({:?})@{}:{}", t.kind, t.value, t.line, t.place))?;
                write!(f, "; names:")?;
                names.iter().try_for_each(|name| write!(f, " {}@{}", name.spelling, name.place))?;
                functions.iter().try_for_each(|function| write!(f, "\n    {function:?}"))
            }
        }
    }
}

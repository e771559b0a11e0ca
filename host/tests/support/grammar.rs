//! Whole programs by the grammar, most of them well typed: as lists of tokens, and as texts in several layouts.
use super::dice::Dice;
use super::words::{ARITHMETIC, COMPARISONS, Type, push, push_definition, push_formals, push_result};

/// A spelling says its type, so that no name is ever entered with two.
fn names(ty: Type) -> &'static [&'static str] {
    match ty {
        Type::Int => &["i", "n", "x1", "total", "i_2", "Int", "ints", "add1", "r", "long_name_of_a_number"],
        Type::Bool => &["b", "flag", "is_ok", "t", "Bool", "true_", "c3", "not_a", "e", "B_9"],
    }
}

struct Signature {
    name: &'static str,
    formals: Vec<(&'static str, Type)>,
    result: Option<Type>,
}

const FUNCTIONS: [&str; 8] = ["@main", "@f", "@g2", "@double", "@fact", "@int", "@A_b", "@x"];
const LABELS: [&str; 8] = [".a", ".b", ".loop", ".end", ".then", ".x", ".int", ".L_1"];
const LOGIC: [&str; 2] = ["and", "or"];
const NUMBERS: [&str; 9] = ["0", "1", "7", "42", "-1", "007", "2147483647", "-2147483648", "1000000"];

/// The tokens of a program: none to four functions that may call each other.
pub fn program(dice: &mut Dice) -> Vec<String> {
    let first = dice.below(FUNCTIONS.len());
    let count = dice.one(&[0, 1, 1, 1, 1, 2, 2, 2, 3, 4]);
    let signatures: Vec<Signature> =
        (0..count).map(|i| signature(dice, FUNCTIONS[(first + i) % FUNCTIONS.len()])).collect();
    let mut tokens = Vec::new();
    for own in &signatures {
        header(&mut tokens, own);
        Body::write(dice, &mut tokens, own, &signatures);
    }
    tokens
}

fn signature(dice: &mut Dice, name: &'static str) -> Signature {
    let formals = (0..dice.below(4)).map(|_| formal(dice)).collect();
    let result = dice.one(&[None, None, Some(Type::Int), Some(Type::Bool)]);
    Signature { name, formals, result }
}

fn formal(dice: &mut Dice) -> (&'static str, Type) {
    let ty = dice.one(&[Type::Int, Type::Bool]);
    (dice.one(names(ty)), ty)
}

fn header(tokens: &mut Vec<String>, own: &Signature) {
    push(tokens, &[own.name]);
    push_formals(tokens, &own.formals);
    if !own.formals.is_empty() {
        push(tokens, &[")"]);
    }
    push_result(tokens, own.result);
}

/// A function's body as it is written: blocks that jump to each other, and operations on names that hold a value.
struct Body<'a> {
    dice: &'a mut Dice,
    tokens: &'a mut Vec<String>,
    own: &'a Signature,
    all: &'a [Signature],
    /// The names that have been entered wherever the walk may have come from: formals, and those of block 0.
    known: Vec<(&'static str, Type)>,
    labels: &'static [&'static str],
}

impl<'a> Body<'a> {
    fn write(dice: &'a mut Dice, tokens: &'a mut Vec<String>, own: &'a Signature, all: &'a [Signature]) {
        let blocks = dice.between(1, 5);
        let labels = &LABELS[..blocks];
        let known = own.formals.clone();
        let mut body = Body { dice, tokens, own, all, known, labels };
        push(body.tokens, &["{"]);
        for block in 0..blocks {
            body.block(block);
        }
        push(body.tokens, &["}"]);
    }

    fn block(&mut self, block: usize) {
        // Jumps may go to any block, so block 0 has a label too, unless it is alone.
        if self.labels.len() > 1 {
            push(self.tokens, &[self.labels[block], ":"]);
        }
        let of_block_0 = self.known.len();
        for _ in 0..self.dice.between(1, 5) {
            self.operation();
        }
        self.terminator(block);
        if block > 0 {
            self.known.truncate(of_block_0);
        }
    }

    fn operation(&mut self) {
        match self.dice.below(9) {
            0 | 1 => self.constant(),
            2 => self.binary(&ARITHMETIC, Type::Int, Type::Int),
            3 => self.binary(&COMPARISONS, Type::Int, Type::Bool),
            4 => self.binary(&LOGIC, Type::Bool, Type::Bool),
            5 => self.unary(),
            6 => self.call(),
            7 => {
                let value = self.value(Type::Int);
                push(self.tokens, &["print", value, ";"]);
            }
            _ => push(self.tokens, &["nop", ";"]),
        }
    }

    fn constant(&mut self) {
        let ty = self.dice.one(&[Type::Int, Type::Bool]);
        self.constant_of(ty);
    }

    fn constant_of(&mut self, ty: Type) -> &'static str {
        let value = match ty {
            Type::Int => self.dice.one(&NUMBERS),
            Type::Bool => self.dice.one(&["true", "false"]),
        };
        let name = self.dice.one(names(ty));
        self.define(name, ty, &["const", value]);
        name
    }

    fn define(&mut self, name: &'static str, ty: Type, operation: &[&str]) {
        push_definition(self.tokens, name, ty, operation);
        self.known.push((name, ty));
    }

    /// A name of a type that holds a value; where there is none yet, one is set before the operation.
    fn value(&mut self, ty: Type) -> &'static str {
        let known: Vec<&'static str> = self.known.iter().filter(|(_, its)| *its == ty).map(|(name, _)| *name).collect();
        if known.is_empty() { self.constant_of(ty) } else { self.dice.one(&known) }
    }

    fn binary(&mut self, operators: &[&'static str], operands: Type, result: Type) {
        let operator = self.dice.one(operators);
        let (left, right) = (self.value(operands), self.value(operands));
        let name = self.dice.one(names(result));
        self.define(name, result, &[operator, left, right]);
    }

    fn unary(&mut self) {
        let (operator, ty) = self.dice.one(&[("id", Type::Int), ("id", Type::Bool), ("not", Type::Bool)]);
        let operand = self.value(ty);
        let name = self.dice.one(names(ty));
        self.define(name, ty, &[operator, operand]);
    }

    fn call(&mut self) {
        let callee = &self.all[self.dice.below(self.all.len())];
        let arguments = callee.formals.iter().map(|(_, ty)| self.value(*ty));
        let call: Vec<&str> = ["call", callee.name].into_iter().chain(arguments).collect();
        match callee.result {
            Some(ty) => {
                let name = self.dice.one(names(ty));
                self.define(name, ty, &call);
            }
            None => {
                push(self.tokens, &call);
                push(self.tokens, &[";"]);
            }
        }
    }

    /// The last block never jumps, and a void function's may end without a word.
    fn terminator(&mut self, block: usize) {
        let is_last = block + 1 == self.labels.len();
        match self.dice.below(6) {
            0..=2 if !is_last => self.branch(),
            3..=4 if !is_last => {
                let target = self.dice.one(self.labels);
                push(self.tokens, &["jmp", target, ";"]);
            }
            _ => self.end(),
        }
    }

    fn branch(&mut self) {
        let condition = self.value(Type::Bool);
        let (then, otherwise) = (self.dice.one(self.labels), self.dice.one(self.labels));
        push(self.tokens, &["br", condition, then, otherwise, ";"]);
    }

    fn end(&mut self) {
        match self.own.result {
            Some(ty) => {
                let value = self.value(ty);
                push(self.tokens, &["ret", value, ";"]);
            }
            None if self.dice.once_in(2) => push(self.tokens, &["ret", ";"]),
            None => {}
        }
    }
}

// ---- layouts -----------------------------------------------------------------------------------------------------------

/// What stands in a comment.
type Comment = fn(&mut Dice) -> String;

/// A text with these tokens: as short as can be, in lines as people write them, or with anything between two tokens.
pub fn laid_out(dice: &mut Dice, tokens: &[String]) -> Vec<u8> {
    with_comments(dice, tokens, comment_words)
}

/// The same with comments that end where they seem to.
pub fn laid_out_plainly(dice: &mut Dice, tokens: &[String]) -> Vec<u8> {
    with_comments(dice, tokens, |dice| dice.one(&["", " ", "note", "@f { nop; }", "x * y", "#", "1", "$"]).to_owned())
}

fn with_comments(dice: &mut Dice, tokens: &[String], comment: Comment) -> Vec<u8> {
    let gap: fn(&mut Dice, &str, &str, Comment) -> String = match dice.below(4) {
        0 => |_, _, _, _| String::new(),
        1 => in_lines,
        _ => |dice, _, _, comment| any_gap(dice, comment),
    };
    let mut text = String::new();
    let mut last = "";
    for token in tokens {
        let between = gap(dice, last, token, comment);
        let blank = if between.is_empty() && needs_blank(last, token) { " " } else { "" };
        text.extend([between.as_str(), blank, token]);
        last = token;
    }
    text.push_str(&gap(dice, last, "", comment));
    text.into_bytes()
}

/// Whether two tokens would be read as one, or otherwise, with nothing between them.
fn needs_blank(last: &str, next: &str) -> bool {
    let is_part = |c: char| c.is_ascii_alphanumeric() || c == '_';
    last.ends_with(is_part) && next.starts_with(is_part)
}

fn in_lines(dice: &mut Dice, last: &str, next: &str, comment: Comment) -> String {
    let gap = match (last, next) {
        (";" | "{", "}") => "\n",
        (";" | "{", label) if label.starts_with('.') => "\n",
        (";" | "{", _) => "\n  ",
        ("}", _) => "\n\n",
        (_, ":" | ";" | "," | ")") | ("(", _) => "",
        _ => " ",
    };
    match dice.below(60) {
        0 => format!(" # {}\n{gap}", comment(dice)),
        1 => format!("{gap}/* {} */ ", comment(dice)),
        _ => gap.to_owned(),
    }
}

fn any_gap(dice: &mut Dice, comment: Comment) -> String {
    match dice.below(24) {
        0..=9 => " ".to_owned(),
        10..=13 => "\n".to_owned(),
        14 => "\r\n\t".to_owned(),
        15 => "  \n\n ".to_owned(),
        16 => format!("#{}\n", comment(dice)),
        17 => format!("//{}\n", comment(dice)),
        18 => format!("/*{}*/", comment(dice)),
        19 => format!("/*{}\n{}\n*/", comment(dice), comment(dice)),
        _ => String::new(),
    }
}

/// What stands in comments. A star there may swallow the byte after it, and with it the comment's end.
fn comment_words(dice: &mut Dice) -> String {
    let words =
        ["", " ", "note", "@f { nop; }", "a/b", "//", "#", "'\"\\", "** ", "* ", "x * y", "/*", "1", "\t", "\u{1}"];
    (0..dice.below(4)).map(|_| dice.one(&words)).collect()
}

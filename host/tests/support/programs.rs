//! Programs to check, by the grammar: most of them well typed, with branches, loops and calls, and copies with one slip or
//! a few, as a person makes them.
use super::dice::Dice;
use super::words::{ARITHMETIC, COMPARISONS, Type, push, push_definition, push_formals, push_result};

fn names(ty: Type) -> &'static [&'static str] {
    match ty {
        Type::Int => &["i", "n", "x1", "total", "k", "m", "add1", "hour", "least"],
        Type::Bool => &["b", "flag", "is_ok", "t", "cold", "true_", "c3", "on"],
    }
}

#[derive(Clone)]
struct Signature {
    name: String,
    formals: Vec<(&'static str, Type)>,
    result: Option<Type>,
}

/// How daring a program is: what it does that may be refused.
#[derive(Clone, Copy, Default)]
struct Manner {
    /// Names that another block sets are read, so that the order of the blocks decides.
    reads_elsewhere: bool,
    /// Names are set with the type that they don't have elsewhere.
    mixes_types: bool,
    /// Some blocks have no way to them.
    leaves_blocks: bool,
}

const LOGIC: [&str; 3] = ["and", "or", "eq"];
const NUMBERS: [&str; 7] = ["0", "1", "-7", "42", "007", "2147483647", "-2147483648"];

/// The tokens of a program: functions that may call each other and themselves.
pub fn program(dice: &mut Dice) -> Vec<String> {
    let count = match dice.below(40) {
        0 => 0,
        1 => dice.between(5, 12),
        _ => dice.between(1, 4),
    };
    of_functions(dice, count, 5)
}

/// A program of many tokens: as many functions as have room for about so many.
pub fn large(dice: &mut Dice, room: usize) -> Vec<String> {
    let mut tokens = Vec::new();
    let mut number = 0;
    while tokens.len() < room && number < 60 {
        let more = of_functions(dice, 1, 14);
        if tokens.len() + more.len() > room {
            break;
        }
        // Each has a name of its own, calls of itself with it.
        tokens.extend(more.into_iter().map(|token| if token == "@f0" { format!("@big{number}") } else { token }));
        number += 1;
    }
    tokens
}

fn of_functions(dice: &mut Dice, count: usize, blocks: usize) -> Vec<String> {
    let functions = Functions::new(dice, count, blocks);
    (0..count).flat_map(|number| functions.one(dice, number)).collect()
}

/// Functions that may call each other and themselves. Each can be written anew, with another body.
pub struct Functions {
    signatures: Vec<Signature>,
    manner: Manner,
    blocks: usize,
}

impl Functions {
    /// So many functions, each of about so many blocks.
    pub fn new(dice: &mut Dice, count: usize, blocks: usize) -> Self {
        let manner =
            Manner { reads_elsewhere: dice.once_in(3), mixes_types: dice.once_in(12), leaves_blocks: dice.once_in(9) };
        let mut signatures: Vec<Signature> = (0..count).map(|number| signature(dice, number)).collect();
        // The same function twice, which may be, and the same name with two types, which may not.
        if count > 1 && dice.once_in(12) {
            signatures[count - 1] = signatures[0].clone();
        }
        if count > 1 && dice.once_in(40) {
            signatures[count - 1].name = signatures[0].name.clone();
        }
        Self { signatures, manner, blocks }
    }

    /// The tokens of a function, with a new body each time.
    pub fn one(&self, dice: &mut Dice, number: usize) -> Vec<String> {
        self.written(dice, &self.signatures[number])
    }

    /// The same with other names for its formals, of the same types.
    pub fn one_with_other_formals(&self, dice: &mut Dice, number: usize) -> Vec<String> {
        let mut own = self.signatures[number].clone();
        own.formals.iter_mut().for_each(|(name, ty)| *name = dice.one(names(*ty)));
        self.written(dice, &own)
    }

    fn written(&self, dice: &mut Dice, own: &Signature) -> Vec<String> {
        let (manner, all, known) = (self.manner, &self.signatures[..], own.formals.clone());
        let mut tokens = Vec::new();
        header(dice, &mut tokens, own);
        let graph = Graph::new(dice, self.blocks, manner.leaves_blocks);
        Body { dice, tokens: &mut tokens, own, all, manner, known, elsewhere: Vec::new() }.write(&graph);
        tokens
    }
}

fn signature(dice: &mut Dice, number: usize) -> Signature {
    let most = if dice.once_in(25) { 16 } else { 3 };
    // Formals of one name are one name, of one type: its spelling says which.
    let formals = (0..dice.between(0, most)).map(|_| {
        let ty = dice.one(&[Type::Int, Type::Bool]);
        (dice.one(names(ty)), ty)
    });
    let formals = formals.collect();
    let result = dice.one(&[None, None, Some(Type::Int), Some(Type::Bool)]);
    Signature { name: format!("@f{number}"), formals, result }
}

fn header(dice: &mut Dice, tokens: &mut Vec<String>, own: &Signature) {
    push(tokens, &[&own.name]);
    push_formals(tokens, &own.formals);
    match own.formals.is_empty() {
        true if dice.once_in(4) => push(tokens, &["(", ")"]),
        true => {}
        false => push(tokens, &[")"]),
    }
    push_result(tokens, own.result);
}

// ---- graphs ------------------------------------------------------------------------------------------------------------

/// The blocks of a function: in the order in which they are written, each with the blocks that it must lead to.
struct Graph {
    /// The block that is written at each place; block 0 first.
    written: Vec<usize>,
    children: Vec<Vec<usize>>,
}

impl Graph {
    /// Each block but the first is entered from one of those before it, which have room for two, so that a path leads to
    /// every block; unless one is left alone.
    fn new(dice: &mut Dice, most: usize, leaves_blocks: bool) -> Self {
        let count = if dice.once_in(30) { dice.between(1, 4 * most) } else { dice.between(1, most) };
        let mut children = vec![Vec::new(); count];
        for block in 1..count {
            if leaves_blocks && dice.once_in(3) {
                continue;
            }
            let with_room: Vec<usize> = (0..block).filter(|&from| children[from].len() < 2).collect();
            let late = with_room[with_room.len() - 1 - dice.below(with_room.len().min(3))];
            let from = if dice.once_in(2) { late } else { dice.one(&with_room) };
            children[from].push(block);
        }
        let mut written: Vec<usize> = (0..count).collect();
        if dice.once_in(2) {
            for place in (2..count).rev() {
                written.swap(place, dice.between(1, place));
            }
        }
        Self { written, children }
    }

    fn len(&self) -> usize {
        self.written.len()
    }
}

fn label(block: usize) -> String {
    format!(".b{block}")
}

// ---- bodies ------------------------------------------------------------------------------------------------------------

/// A function's body as it is written.
struct Body<'a> {
    dice: &'a mut Dice,
    tokens: &'a mut Vec<String>,
    own: &'a Signature,
    all: &'a [Signature],
    manner: Manner,
    /// Names that hold a value whatever the order: formals, those of block 0, and those set before in the block itself.
    known: Vec<(&'static str, Type)>,
    /// Names that some block sets.
    elsewhere: Vec<(&'static str, Type)>,
}

impl Body<'_> {
    fn write(mut self, graph: &Graph) {
        push(self.tokens, &["{"]);
        for &block in &graph.written {
            self.block(graph, block);
        }
        push(self.tokens, &["}"]);
    }

    fn block(&mut self, graph: &Graph, block: usize) {
        if block == 0 && self.dice.once_in(8) {
            push(self.tokens, &[".entry", ":"]);
        }
        if block > 0 || graph.len() > 1 || self.dice.once_in(3) {
            push(self.tokens, &[&label(block), ":"]);
        }
        let of_block_0 = self.known.len();
        let count = self.dice.between(0, 4);
        for _ in 0..count {
            self.operation();
        }
        self.terminator(graph, block, count == 0);
        if block > 0 {
            self.elsewhere.extend(self.known.drain(of_block_0..));
        }
    }

    fn operation(&mut self) {
        match self.dice.below(12) {
            0..3 => self.constant(),
            3 | 4 => self.binary(&ARITHMETIC, Type::Int, Type::Int),
            5 => self.binary(&COMPARISONS, Type::Int, Type::Bool),
            6 => self.binary(&LOGIC, Type::Bool, Type::Bool),
            7 => self.unary(),
            8 | 9 => self.call(),
            10 => {
                let ty = self.dice.one(&[Type::Int, Type::Bool]);
                let value = self.value(ty);
                push(self.tokens, &["print", value, ";"]);
            }
            _ => push(self.tokens, &["nop", ";"]),
        }
    }

    fn constant(&mut self) {
        let ty = self.dice.one(&[Type::Int, Type::Bool]);
        self.constant_of(ty);
    }

    fn constant_of(&mut self, ty: Type) -> &'static str {
        let value = match ty {
            Type::Int => self.dice.one(&NUMBERS),
            Type::Bool => self.dice.one(&["true", "false"]),
        };
        let name = self.result_name(ty);
        self.define(name, ty, &["const", value]);
        name
    }

    fn result_name(&mut self, ty: Type) -> &'static str {
        let mixed = self.manner.mixes_types && self.dice.once_in(6);
        self.dice.one(if mixed { names(ty.other()) } else { names(ty) })
    }

    fn define(&mut self, name: &'static str, ty: Type, operation: &[&str]) {
        push_definition(self.tokens, name, ty, operation);
        self.known.push((name, ty));
    }

    /// A name of a type that holds a value; where there is none yet, one is set before the operation.
    fn value(&mut self, ty: Type) -> &'static str {
        let of_type = |names: &[(&'static str, Type)]| -> Vec<&'static str> {
            names.iter().filter(|(_, its)| *its == ty).map(|(name, _)| *name).collect()
        };
        if self.manner.reads_elsewhere && self.dice.once_in(4) {
            let elsewhere = of_type(&self.elsewhere);
            if !elsewhere.is_empty() {
                return self.dice.one(&elsewhere);
            }
        }
        let known = of_type(&self.known);
        if known.is_empty() { self.constant_of(ty) } else { self.dice.one(&known) }
    }

    fn binary(&mut self, operators: &[&'static str], operands: Type, result: Type) {
        let operator = self.dice.one(operators);
        let (left, right) = (self.value(operands), self.value(operands));
        let name = self.result_name(result);
        self.define(name, result, &[operator, left, right]);
    }

    fn unary(&mut self) {
        let (operator, ty) = self.dice.one(&[("id", Type::Int), ("id", Type::Bool), ("not", Type::Bool)]);
        let operand = self.value(ty);
        let name = self.result_name(ty);
        self.define(name, ty, &[operator, operand]);
    }

    fn call(&mut self) {
        let callee = &self.all[self.dice.below(self.all.len())];
        let arguments: Vec<&str> = callee.formals.iter().map(|(_, ty)| self.value(*ty)).collect();
        let call: Vec<&str> = ["call", &callee.name].into_iter().chain(arguments).collect();
        match callee.result {
            Some(ty) => {
                let name = self.result_name(ty);
                self.define(name, ty, &call);
            }
            None => {
                push(self.tokens, &call);
                push(self.tokens, &[";"]);
            }
        }
    }

    fn terminator(&mut self, graph: &Graph, block: usize, is_empty: bool) {
        let any = |dice: &mut Dice| label(dice.below(graph.len()));
        let has_labels = graph.len() > 1;
        match graph.children[block][..] {
            [one] if self.dice.once_in(2) => self.jump(&label(one)),
            [one] => {
                let other = any(self.dice);
                self.branch(&label(one), &other);
            }
            [one, two] => self.branch(&label(one), &label(two)),
            _ if has_labels && self.dice.once_in(4) => {
                let back = any(self.dice);
                self.jump(&back);
            }
            _ if has_labels && self.dice.once_in(6) => {
                let (one, two) = (any(self.dice), any(self.dice));
                self.branch(&one, &two);
            }
            _ => self.end(is_empty),
        }
    }

    fn jump(&mut self, to: &str) {
        push(self.tokens, &["jmp", to, ";"]);
    }

    fn branch(&mut self, one: &str, two: &str) {
        let condition = if self.dice.once_in(8) { "nowhere_set" } else { self.value(Type::Bool) };
        let (one, two) = if self.dice.once_in(2) { (one, two) } else { (two, one) };
        push(self.tokens, &["br", condition, one, two, ";"]);
    }

    /// A void function's block may end without a word, if it has any operation.
    fn end(&mut self, is_empty: bool) {
        match self.own.result {
            Some(ty) => {
                let value = self.value(ty);
                push(self.tokens, &["ret", value, ";"]);
            }
            None if is_empty || self.dice.once_in(2) => push(self.tokens, &["ret", ";"]),
            None => {}
        }
    }
}

// ---- slips -------------------------------------------------------------------------------------------------------------

const OPERATORS: [&str; 14] =
    ["add", "mul", "sub", "div", "mod", "eq", "lt", "gt", "le", "ge", "and", "or", "id", "not"];
const WORDS: [&str; 25] = [
    "print", "ret", "jmp", "br", "nop", "call", "const", "add", "not", "id", "int", "bool", "true", "5", ";", ":", ",",
    "(", ")", "{", "}", "=", "x", "@f0", ".b1",
];

/// One change, of a sort that leaves most of the program as it was.
pub fn slip(dice: &mut Dice, tokens: &mut Vec<String>) {
    if tokens.is_empty() {
        return push(tokens, &["@f", "{"]);
    }
    match dice.below(26) {
        22 | 23 => value_of_ret(dice, tokens),
        24 | 25 => result_of_call(dice, tokens),
        0..3 => replace(dice, tokens, |token| ["int", "bool"].contains(&token), &["int", "bool"]),
        3..6 => like_another(dice, tokens, is_local, "unset"),
        6..8 => like_another(dice, tokens, |token| token.starts_with('.'), ".missing"),
        8 | 9 => like_another(dice, tokens, |token| token.starts_with('@'), "@missing"),
        10 => replace(dice, tokens, |token| OPERATORS.contains(&token), &OPERATORS),
        11 => replace(dice, tokens, is_constant, &["0", "true", "false", "-1", "2147483648", ";"]),
        12 => remove_some(dice, tokens, is_local),
        13 => double_some(dice, tokens, is_local),
        14 | 15 => statement(dice, tokens, false),
        16 => statement(dice, tokens, true),
        17 => label_at_a_statement(dice, tokens),
        18 => {
            let at = dice.below(tokens.len());
            tokens.remove(at);
        }
        19 => {
            let (at, other) = (dice.below(tokens.len()), dice.below(tokens.len()));
            tokens.insert(at, tokens[other].clone());
        }
        20 => {
            let at = dice.below(tokens.len());
            tokens[at] = dice.one(&WORDS).to_owned();
        }
        _ => {
            let at = dice.below(tokens.len());
            if dice.once_in(4) {
                tokens.truncate(at);
            } else {
                tokens.insert(at, dice.one(&WORDS).to_owned());
            }
        }
    }
}

fn is_local(token: &str) -> bool {
    let is_word = OPERATORS.contains(&token) || WORDS[..13].contains(&token) || token == "false";
    token.starts_with(|c: char| c.is_ascii_alphabetic()) && !is_word
}

fn is_constant(token: &str) -> bool {
    ["true", "false"].contains(&token) || token.starts_with(|c: char| c.is_ascii_digit() || c == '-')
}

/// The places of tokens of a sort.
fn places(tokens: &[String], sort: impl Fn(&str) -> bool) -> Vec<usize> {
    (0..tokens.len()).filter(|&at| sort(&tokens[at])).collect()
}

fn replace(dice: &mut Dice, tokens: &mut [String], sort: impl Fn(&str) -> bool, with: &[&str]) {
    let found = places(tokens, sort);
    if !found.is_empty() {
        tokens[dice.one(&found)] = dice.one(with).to_owned();
    }
}

/// A token of a sort becomes another of the program, or one that stands nowhere.
fn like_another(dice: &mut Dice, tokens: &mut [String], sort: impl Fn(&str) -> bool, nowhere: &str) {
    let found = places(tokens, sort);
    if !found.is_empty() {
        let (at, other) = (dice.one(&found), dice.one(&found));
        tokens[at] = if dice.once_in(5) { nowhere.to_owned() } else { tokens[other].clone() };
    }
}

fn remove_some(dice: &mut Dice, tokens: &mut Vec<String>, sort: impl Fn(&str) -> bool) {
    let found = places(tokens, sort);
    if !found.is_empty() {
        tokens.remove(dice.one(&found));
    }
}

fn double_some(dice: &mut Dice, tokens: &mut Vec<String>, sort: impl Fn(&str) -> bool) {
    let found = places(tokens, sort);
    if !found.is_empty() {
        let (at, other) = (dice.one(&found), dice.one(&found));
        tokens.insert(at, tokens[other].clone());
    }
}

/// A statement is left out, or stands once more at another's place.
fn statement(dice: &mut Dice, tokens: &mut Vec<String>, again: bool) {
    let ends = places(tokens, |token| token == ";");
    if ends.is_empty() {
        return;
    }
    let end = dice.one(&ends);
    let begin =
        tokens[..end].iter().rposition(|token| [";", "{", "}"].contains(&token.as_str())).map_or(0, |at| at + 1);
    if again {
        let copy = tokens[begin..=end].to_vec();
        let at = dice.one(&ends) + 1;
        tokens.splice(at..at, copy);
    } else {
        tokens.drain(begin..=end);
    }
}

/// A `ret` loses its value, or gets one.
fn value_of_ret(dice: &mut Dice, tokens: &mut Vec<String>) {
    let found = places(tokens, |token| token == "ret");
    let locals = places(tokens, is_local);
    if found.is_empty() || locals.is_empty() {
        return;
    }
    let at = dice.one(&found) + 1;
    match tokens.get(at).is_some_and(|token| is_local(token)) {
        true => drop(tokens.remove(at)),
        false => tokens.insert(at, tokens[dice.one(&locals)].clone()),
    }
}

/// A call loses its result, or gets one.
fn result_of_call(dice: &mut Dice, tokens: &mut Vec<String>) {
    let found = places(tokens, |token| token == "call");
    let locals = places(tokens, is_local);
    if found.is_empty() || locals.is_empty() {
        return;
    }
    let at = dice.one(&found);
    if at > 3 && tokens[at - 1] == "=" {
        tokens.drain(at - 4..at);
    } else {
        let name = tokens[dice.one(&locals)].clone();
        let ty = dice.one(&["int", "bool"]).to_owned();
        tokens.splice(at..at, [name, ":".to_owned(), ty, "=".to_owned()]);
    }
}

/// A label before a statement: a new one, or one that the program has.
fn label_at_a_statement(dice: &mut Dice, tokens: &mut Vec<String>) {
    let ends = places(tokens, |token| [";", "{"].contains(&token));
    let labels = places(tokens, |token| token.starts_with('.'));
    if ends.is_empty() {
        return;
    }
    let label = match labels.is_empty() || dice.once_in(2) {
        true => ".more".to_owned(),
        false => tokens[dice.one(&labels)].clone(),
    };
    let at = dice.one(&ends) + 1;
    tokens.splice(at..at, [label, ":".to_owned()]);
}

// ---- limits ------------------------------------------------------------------------------------------------------------

/// A program at one of the checker's limits, or a little below or above, with something after it.
pub fn near_a_limit(dice: &mut Dice) -> Vec<String> {
    let mut tokens = Vec::new();
    match dice.below(7) {
        0 | 1 => {
            let count = dice.between(62, 67);
            for number in 0..count {
                push(&mut tokens, &[&format!("@g{number}"), "{", "nop", ";", "}"]);
            }
        }
        2 | 3 => {
            let (formals, arguments) = (dice.between(14, 18), dice.between(14, 18));
            let arguments = if dice.once_in(2) { formals } else { arguments };
            formals_and_arguments(&mut tokens, formals, arguments);
        }
        4 => {
            // All labels name block 0.
            push(&mut tokens, &["@g", "{"]);
            let count = dice.between(253, 258);
            (0..count).for_each(|number| push(&mut tokens, &[&format!(".l{number}"), ":"]));
            push(&mut tokens, &["ret", ";", "}"]);
        }
        _ => chain(dice, &mut tokens),
    }
    if dice.once_in(2) {
        let more = program(dice);
        tokens.extend(more);
    }
    if dice.once_in(3) {
        slip(dice, &mut tokens);
    }
    tokens
}

fn formals_and_arguments(tokens: &mut Vec<String>, formals: usize, arguments: usize) {
    push(tokens, &["@g", "("]);
    for number in 0..formals {
        if number > 0 {
            push(tokens, &[","]);
        }
        push(tokens, &[&format!("p{number}"), ":", if number % 3 == 0 { "bool" } else { "int" }]);
    }
    push(tokens, &[")", "{", "call", "@g"]);
    (0..arguments).for_each(|number| push(tokens, &[&format!("p{number}")]));
    push(tokens, &[";", "}"]);
}

/// As many blocks as there may be, each with a way to the next, and some with a way back.
pub fn chain(dice: &mut Dice, tokens: &mut Vec<String>) {
    push(tokens, &["@g", "{", "q", ":", "bool", "=", "const", "true", ";", "jmp", ".l0", ";"]);
    let count = dice.between(253, 258);
    for number in 0..count {
        push(tokens, &[&format!(".l{number}"), ":"]);
        let next = format!(".l{}", number + 1);
        let other = format!(".l{}", dice.below(count));
        match dice.below(5) {
            _ if number + 1 == count => push(tokens, &["ret", ";"]),
            0 => push(tokens, &["br", "q", &next, &other, ";"]),
            1 => push(tokens, &["br", "q", &other, &next, ";"]),
            _ => push(tokens, &["jmp", &next, ";"]),
        }
    }
    push(tokens, &["}"]);
}

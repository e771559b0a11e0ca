//! The texts of the benchmark.
use std::fmt::Write;

use pitchsleet::Reader;
use pitchsleet::raw::{NAMES, TEXT_BYTES, TOKENS};

use crate::table::grouped;

/// A text, what it is, and the numbers that a reading and a check answer with.
pub struct Text {
    pub title: String,
    pub bytes: Vec<u8>,
    pub read: u32,
    pub check: u32,
}

impl Text {
    fn new(title: impl Into<String>, bytes: Vec<u8>, read: u32, check: u32) -> Self {
        Self { title: title.into(), bytes, read, check }
    }
}

/// The name of ordinary rules, of which most aims speak.
pub const ORDINARY: &str = "ordinary rules";

/// Ordinary rules of each length.
pub fn of_each_length() -> impl Iterator<Item = Text> {
    [100, 300, 1_024, 2_048, 4_096, TEXT_BYTES].into_iter().map(|bytes| Text::new(ORDINARY, ordinary(bytes, ""), 0, 0))
}

/// Texts with many names, which take the longest: each name is looked for in a list.
pub fn of_many_names() -> [Text; 2] {
    let printed: String = (0..1_000).map(|number| format!("  print v{number};\n")).collect();
    let set: String = (1..560).map(|number| format!("  v{number}: int = id v{};\n", number - 1)).collect();
    [
        Text::new("1,000 names, printed", format!("@f {{\n{printed}}}\n").into_bytes(), 0, 0),
        Text::new("560 names, set and read", format!("@f(v0: int) {{\n{set}}}\n").into_bytes(), 0, 0),
    ]
}

/// Texts that are refused: at the first byte, by the parser at the end, and by typing at the end.
pub fn refused() -> [Text; 3] {
    let at_once = [b"$", &ordinary(TEXT_BYTES - 1, "")[..]].concat();
    let by_parser = ordinary(TEXT_BYTES, "@late: int {\n  t: int = const 1;\n  ret t\n}\n");
    let by_typing = ordinary(TEXT_BYTES, "@late: int {\n  t: bool = const true;\n  ret t;\n}\n");
    [
        Text::new("refused at its first byte, 3", at_once, 3, 3),
        Text::new("refused at the end by the parser, 5", by_parser, 0, 5),
        Text::new("refused at the end by typing, 17", by_typing, 0, 17),
    ]
}

// ---- ordinary rules ----------------------------------------------------------------------------------------------------

/// Rules as people write them, as many as have room in so many bytes, with a last part and then a comment up to the length.
pub fn ordinary(bytes: usize, last: &str) -> Vec<u8> {
    let rule = if bytes < ROOM_OF_RULES { short_rule } else { rule };
    let mut text = String::new();
    for more in (0..).map(rule) {
        if text.len() + more.len() + last.len() > bytes {
            break;
        }
        text.push_str(&more);
    }
    text.push_str(last);
    let left = bytes - text.len();
    if left > 0 {
        text.push('#');
        text.extend((1..left).map(|_| '-'));
    }
    text.into_bytes()
}

/// In fewer bytes the rules are short ones.
const ROOM_OF_RULES: usize = 512;

/// A short rule: whether it is below zero.
fn short_rule(number: usize) -> String {
    let number = if number == 0 { String::new() } else { format!("_{number}") };
    format!("@frost{number}(t: int): bool {{\n  zero: int = const 0;\n  cold: bool = lt t zero;\n  ret cold;\n}}\n")
}

/// A rule: the least of some hours, and whether it is below a limit.
fn rule(number: usize) -> String {
    let hours = 2 + number % 5;
    let formals: Vec<String> = (0..hours).map(|hour| format!("hour_{hour}: int")).collect();
    let mut text = format!("# Station {number}: the night's least, against its limit.\n");
    write!(text, "@station_{number}({}): bool {{\n  least: int = id hour_0;\n", formals.join(", "))
        .expect("a String takes all");
    for hour in 1..hours {
        let lines = format!(
            "  colder: bool = lt hour_{hour} least;\n  br colder .take_{hour} .keep_{hour};\n\
             .take_{hour}:\n  least: int = id hour_{hour};\n  jmp .keep_{hour};\n.keep_{hour}:\n"
        );
        text.push_str(&lines);
    }
    text.push_str("  limit: int = const -2;\n  start: bool = le least limit;\n  print least;\n  ret start;\n}\n\n");
    text
}

// ---- the worst ---------------------------------------------------------------------------------------------------------

/// Names of one length, which differ in two bytes, and then one of them again and again.
#[derive(Clone, Copy)]
struct Names {
    count: usize,
    length: usize,
    /// Whether they differ in their last bytes, or behind the letter that they begin with.
    differ_last: bool,
    /// Whether it is the last one that comes again, or the first.
    again_last: bool,
}

impl Names {
    /// So many names of this length, of each kind.
    fn of(count: usize, length: usize) -> impl Iterator<Item = Self> {
        let kinds = [(true, true), (true, false), (false, true), (false, false)];
        kinds.into_iter().map(move |(differ_last, again_last)| Self { count, length, differ_last, again_last })
    }

    /// The name with a number. No word begins with its letter.
    fn spelled(&self, number: usize) -> String {
        const LETTERS: &[u8] = b"abcdefghijklmnopqrstuvwxyzABCDEFGHIJKLMNOPQRSTUVWXYZ0123456789_";
        let two = [number / LETTERS.len(), number % LETTERS.len()].map(|at| char::from(LETTERS[at]));
        let two: String = two.iter().collect();
        let rest = "v".repeat(self.length - 3);
        if self.differ_last { format!("v{rest}{two}") } else { format!("v{two}{rest}") }
    }

    /// The one that comes again and again.
    fn again(&self) -> String {
        self.spelled(if self.again_last { self.count - 1 } else { 0 })
    }

    fn titled(&self, word: &str) -> String {
        let which = |is_last: bool| if is_last { "last" } else { "first" };
        let (differ, again) = (which(self.differ_last), which(self.again_last));
        let count = grouped(self.count as u64);
        format!("{count} names of {}, {differ} 2 bytes differ, the {again} again, {word}", self.length)
    }

    /// Names alone, one after the other, in a text that is full of them. A check refuses it, once it is read.
    fn alone(self) -> Text {
        let words = (TEXT_BYTES / (self.length + 1)).min(TOKENS - 1);
        let again = (self.count..words).map(|_| self.again());
        let names: Vec<String> = (0..self.count).map(|number| self.spelled(number)).chain(again).collect();
        Text::new(self.titled("alone"), names.join(" ").into_bytes(), 0, 7)
    }

    /// The names are printed, and then one again, as often as there is room for.
    fn printed(self) -> Text {
        let print = |name: String| format!("print {name};");
        let names: String = (0..self.count).map(|number| print(self.spelled(number))).collect();
        Text::new(self.titled("printed"), filled(format!("@f{{{names}"), 3, &print(self.again())), 0, 0)
    }

    /// The names are formals, printed and one set, and then one is handed over, sixteen times a call, as often as there is
    /// room for.
    fn called(self) -> Text {
        let last = self.count - 1;
        let formals: Vec<String> = (0..16).map(|number| format!("{}:int", self.spelled(number))).collect();
        let names: String = (16..last).map(|number| format!("print {};", self.spelled(number))).collect();
        let front = format!("@f({}){{{names}{}:int=const 1;", formals.join(","), self.spelled(last));
        let arguments = format!(" {}", self.again()).repeat(16);
        Text::new(self.titled("called"), filled(front, 19, &format!("call @f{arguments};")), 0, 0)
    }
}

/// Texts of which one may be the worst that is accepted.
pub fn full_of_names() -> impl Iterator<Item = Text> {
    let room = TEXT_BYTES - "@f{}".len();
    let printed = (5..16).map(move |length| ((room / (length + "print ;".len())).min(NAMES - 1), length));
    let called = (3..10).flat_map(|length| [450, 550, 650, 700, 750, 800, 850, 900].map(|count| (count, length)));
    let printed = printed.flat_map(|(count, length)| Names::of(count, length)).map(Names::printed);
    printed.chain(called.flat_map(|(count, length)| Names::of(count, length)).map(Names::called))
}

/// Texts of which one may be the worst that is read.
pub fn names_alone() -> impl Iterator<Item = Text> {
    (3..16).flat_map(|length| Names::of(NAMES, length)).map(Names::alone)
}

/// A function that goes on with an operation of so many tokens as long as there is room for it.
fn filled(mut text: String, tokens: usize, operation: &str) -> Vec<u8> {
    // The end token is counted; the closing brace is still to come.
    let mut count = Reader::new().read(text.as_bytes()).expect("inside the limits").len() + 1;
    while count + tokens <= TOKENS && text.len() + operation.len() < TEXT_BYTES {
        text.push_str(operation);
        count += tokens;
    }
    text.push('}');
    text.into_bytes()
}

//! "Text to tokens".
use std::collections::HashMap;

use super::{BYTES, NAME, NAMES, TOKENS};
use crate::support::said::{Said, SaidName, SaidToken};

const WORDS: [&str; 25] = [
    "add", "and", "bool", "br", "call", "const", "div", "eq", "false", "ge", "gt", "id", "int", "jmp", "le", "lt",
    "mod", "mul", "nop", "not", "or", "print", "ret", "sub", "true",
];
const SYMBOLS: [&str; 8] = ["(", ")", ",", ":", ";", "=", "{", "}"];

/// What stands at the front of a text, and how many bytes it takes.
enum Piece {
    Newline,
    /// Blanks and comments.
    Nothing(usize),
    Integer(i64, usize),
    /// A number above 2147483647.
    OutOfRange(usize),
    Fixed(&'static str),
    Name(&'static str, usize),
    Refused(u32, String),
}

/// A refusal that stops the reading.
struct Stop {
    number: u32,
    line: u32,
    place: usize,
    words: String,
}

impl Stop {
    fn said(self) -> Said {
        let message = format!("[line {}] Error : {}\n", self.line, self.words);
        Said::Refused {
            number: self.number,
            line: self.line,
            place: self.place,
            // The one byte of the text that a message may hold is ASCII, so its characters are its bytes.
            message: message.into_bytes(),
        }
    }
}

/// The answer to a text.
pub fn read(text: &[u8]) -> Said {
    read_from(1, text)
}

/// The answer to a text whose first line has a number.
pub fn read_from(line: u32, text: &[u8]) -> Said {
    Reading::new(line, text, false).said()
}

/// The answer that a text would have if there were no limits and a number out of range were dropped: the Rust's own.
pub fn read_as_rust(text: &[u8]) -> Said {
    Reading::new(1, text, true).said()
}

struct Reading<'t> {
    text: &'t [u8],
    is_as_rust: bool,
    line: u32,
    place: usize,
    tokens: Vec<SaidToken>,
    names: Vec<SaidName>,
    numbers: HashMap<&'t [u8], usize>,
}

impl<'t> Reading<'t> {
    fn new(line: u32, text: &'t [u8], is_as_rust: bool) -> Self {
        let (tokens, names, numbers) = (Vec::new(), Vec::new(), HashMap::new());
        Self { text, is_as_rust, line, place: 0, tokens, names, numbers }
    }

    fn said(mut self) -> Said {
        match self.whole() {
            Err(stop) => stop.said(),
            Ok(()) => Said::Accepted { tokens: self.tokens, names: self.names, functions: Vec::new() },
        }
    }

    /// "Order: 31, 1, then from left to right."
    fn whole(&mut self) -> Result<(), Stop> {
        if !self.is_as_rust && self.text.len() > BYTES {
            return Err(Stop { number: 31, line: 0, place: 0, words: "too many bytes.".to_owned() });
        }
        if self.text.iter().any(|&byte| byte > 127) {
            return self.stop(1, "Only ASCII input is supported.");
        }
        while self.place < self.text.len() {
            self.one_piece()?;
        }
        // "The end token carries the last line"; its place is the text's length.
        self.token("END_OF_FILE", None)
    }

    fn stop(&self, number: u32, words: &str) -> Result<(), Stop> {
        Err(Stop { number, line: self.line, place: self.place, words: words.to_owned() })
    }

    fn one_piece(&mut self) -> Result<(), Stop> {
        let length = match front(&self.text[self.place..]) {
            Piece::Newline => {
                self.line += 1;
                1
            }
            Piece::Nothing(length) => length,
            Piece::Integer(value, length) => {
                self.token("integer", Some(value))?;
                length
            }
            Piece::OutOfRange(length) => {
                if !self.is_as_rust {
                    self.stop(43, "Number out of range.")?;
                }
                length
            }
            Piece::Fixed(kind) => {
                self.token(kind, None)?;
                kind.len()
            }
            Piece::Name(kind, length) => {
                let number = self.name(length)?;
                self.token(kind, Some(number as i64))?;
                length
            }
            Piece::Refused(number, words) => return self.stop(number, &words),
        };
        self.place += length;
        Ok(())
    }

    /// "For one name 34 comes before 33, and both before 32."
    fn name(&mut self, length: usize) -> Result<usize, Stop> {
        let spelling = &self.text[self.place..][..length];
        if !self.is_as_rust && length > NAME {
            self.stop(34, "name too long.")?;
        }
        if let Some(&known) = self.numbers.get(spelling) {
            return Ok(known);
        }
        let number = self.names.len();
        if !self.is_as_rust && number == NAMES {
            self.stop(33, "too many names.")?;
        }
        self.numbers.insert(spelling, number);
        let spelling = String::from_utf8(spelling.to_vec()).expect("ASCII");
        self.names.push(SaidName { place: self.place, spelling });
        Ok(number)
    }

    fn token(&mut self, kind: &'static str, value: Option<i64>) -> Result<(), Stop> {
        if !self.is_as_rust && self.tokens.len() == TOKENS {
            self.stop(32, "too many tokens.")?;
        }
        self.tokens.push(SaidToken { kind, value, line: self.line, place: self.place });
        Ok(())
    }
}

/// The piece at the front of a text that is not empty.
fn front(text: &[u8]) -> Piece {
    match text {
        [b'\n', ..] => Piece::Newline,
        [b' ' | b'\t' | b'\r', ..] => Piece::Nothing(1),
        [b'#', ..] | [b'/', b'/', ..] => Piece::Nothing(through_newline(text)),
        [b'/', b'*', inside @ ..] => match comment_length(inside) {
            Some(length) => Piece::Nothing(2 + length),
            None => Piece::Refused(2, "Multiline comment no closed.".to_owned()),
        },
        [b'-', digits @ ..] => negative(digits),
        [b'0'..=b'9', ..] => positive(text),
        [b'@', b'a'..=b'z' | b'A'..=b'Z', ..] => Piece::Name("global", 1 + name_length(&text[1..])),
        [b'.', b'a'..=b'z' | b'A'..=b'Z', ..] => Piece::Name("label", 1 + name_length(&text[1..])),
        [b'a'..=b'z' | b'A'..=b'Z', ..] => word(text),
        _ => symbol(text[0]),
    }
}

/// "`#` and `//` run through the next newline."
fn through_newline(text: &[u8]) -> usize {
    let newline = text.iter().position(|&byte| byte == b'\n');
    newline.map_or(text.len(), |at| at + 1)
}

/// "After a star the next byte is consumed whether or not it is `/`." Inside a comment, to its end.
fn comment_length(inside: &[u8]) -> Option<usize> {
    let mut end = 0;
    loop {
        let star = inside[end..].iter().position(|&byte| byte == b'*')?;
        end += star + 2;
        if *inside.get(end - 1)? == b'/' {
            return Some(end);
        }
    }
}

/// "A positive number out of range is now refused by the lexer" (document 02, A2).
fn positive(text: &[u8]) -> Piece {
    let length = digits_length(text);
    match value_of(&text[..length]) {
        Some(value) if value <= 2_147_483_647 => Piece::Integer(value, length),
        _ => Piece::OutOfRange(length),
    }
}

/// "`-` and digits: below -2147483648, or no digit, is 4."
fn negative(digits: &[u8]) -> Piece {
    let length = digits_length(digits);
    match value_of(&digits[..length]) {
        Some(value) if value <= 2_147_483_648 => Piece::Integer(-value, 1 + length),
        _ => Piece::Refused(4, "Expected number after '-'.".to_owned()),
    }
}

fn digits_length(text: &[u8]) -> usize {
    text.iter().take_while(|byte| byte.is_ascii_digit()).count()
}

/// The value of digits, as far as it may matter: none where there is no digit, or where it has more than ten.
fn value_of(digits: &[u8]) -> Option<i64> {
    let significant = digits.iter().skip_while(|&&digit| digit == b'0');
    match (digits.len(), significant.clone().count()) {
        (0, _) | (_, 11..) => None,
        _ => Some(significant.fold(0, |value, &digit| value * 10 + i64::from(digit - b'0'))),
    }
}

/// "Then letters, digits, `_`."
fn name_length(text: &[u8]) -> usize {
    let part = |byte: &&u8| matches!(**byte, b'a'..=b'z' | b'A'..=b'Z' | b'0'..=b'9' | b'_');
    text.iter().take_while(part).count()
}

/// "A letter begins a keyword or local."
fn word(text: &[u8]) -> Piece {
    let length = name_length(text);
    match WORDS.iter().find(|word| word.as_bytes() == &text[..length]) {
        Some(word) => Piece::Fixed(word),
        None => Piece::Name("local", length),
    }
}

fn symbol(byte: u8) -> Piece {
    match SYMBOLS.iter().find(|symbol| symbol.as_bytes() == [byte]) {
        Some(symbol) => Piece::Fixed(symbol),
        None => Piece::Refused(3, format!("Unexpected token: '{}'.", char::from(byte))),
    }
}

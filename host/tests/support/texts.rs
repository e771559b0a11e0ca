//! Generated texts: whole programs, damaged copies, and texts that play around one rule. A seed gives the same ones each time.
use super::dice::Dice;
use super::model::{BYTES, NAME, NAMES, TOKENS};
use super::oracle::Depth;
use super::{grammar, programs};

/// The texts of a run, in order. Each depends on the seed and on its own number alone.
pub fn generated(depth: Depth, seed: u64, numbers: std::ops::Range<u64>) -> impl Iterator<Item = Vec<u8>> {
    let one = match depth {
        Depth::Read => one,
        Depth::Check => one_to_check,
    };
    numbers.map(move |number| one(&mut Dice::new(seed, number)))
}

/// Programs with branches, loops and calls, as they are, with slips, or with bytes lost; and some of the texts to read.
fn one_to_check(dice: &mut Dice) -> Vec<u8> {
    let tokens = match dice.below(1000) {
        0..330 => programs::program(dice),
        330..870 => {
            let mut tokens = programs::program(dice);
            let slips = dice.one(&[1, 1, 1, 1, 2, 2, 3]);
            (0..slips).for_each(|_| programs::slip(dice, &mut tokens));
            tokens
        }
        870..920 => {
            let tokens = programs::program(dice);
            let whole = grammar::laid_out_plainly(dice, &tokens);
            return damaged(dice, whole);
        }
        920..985 => return one(dice),
        985..997 => programs::near_a_limit(dice),
        _ => {
            let room = dice.between(600, 4200);
            let mut tokens = programs::large(dice, room);
            if dice.once_in(2) {
                programs::slip(dice, &mut tokens);
            }
            tokens
        }
    };
    grammar::laid_out_plainly(dice, &tokens)
}

fn one(dice: &mut Dice) -> Vec<u8> {
    match dice.below(1000) {
        0..300 => program(dice),
        300..400 => program_with_odd_tokens(dice),
        400..650 => {
            let whole = program(dice);
            damaged(dice, whole)
        }
        650..780 => soup(dice),
        780..870 => comments(dice),
        870..940 => numbers(dice),
        940..997 => names(dice),
        _ => near_a_limit(dice),
    }
}

fn program(dice: &mut Dice) -> Vec<u8> {
    let tokens = grammar::program(dice);
    grammar::laid_out(dice, &tokens)
}

/// A program as a person's slips leave it: tokens left out, doubled, exchanged, or another in their place, often one of
/// the same sort.
fn program_with_odd_tokens(dice: &mut Dice) -> Vec<u8> {
    let mut tokens = grammar::program(dice);
    for _ in 0..dice.between(1, 4) {
        if tokens.is_empty() {
            break;
        }
        let (at, other) = (dice.below(tokens.len()), dice.below(tokens.len()));
        match dice.below(8) {
            0 => drop(tokens.remove(at)),
            1 => tokens.insert(at, tokens[other].clone()),
            2 => tokens.swap(at, other),
            3 => tokens[at] = dice.one(&ODD_PIECES).to_owned(),
            _ => tokens[at] = one_of_the_sort(dice, &tokens, at),
        }
    }
    grammar::laid_out(dice, &tokens)
}

/// A token of the program that begins as another does: a label for a label, a word or a local for one.
fn one_of_the_sort(dice: &mut Dice, tokens: &[String], at: usize) -> String {
    let sort = |token: &str| match token.bytes().next() {
        Some(b'a'..=b'z' | b'A'..=b'Z') => b'a',
        Some(b'0'..=b'9' | b'-') => b'0',
        first => first.unwrap_or(0),
    };
    let alike: Vec<&String> = tokens.iter().filter(|token| sort(token) == sort(&tokens[at])).collect();
    dice.one(&alike).clone()
}

const ODD_PIECES: [&str; 34] = [
    "-", "@", ".", "/", "/*", "*/", "_", "$", "-2147483649", "\0", "/***/", "*", "@9", "'", "\"", "\\", "#", "//",
    "2147483648", "-0", "--1", "1.5", "\r", "\x7f", "\x0b", "@ f", ". a", "+1", "[", "]", "<", "0x1f", "int", ";;",
];

/// A copy with some bytes lost, added, changed, or moved about.
pub fn damaged(dice: &mut Dice, mut text: Vec<u8>) -> Vec<u8> {
    for _ in 0..dice.between(1, 4) {
        let (from, to) = span(dice, &text);
        match dice.below(7) {
            0 => drop(text.drain(from..to)),
            1 => text.truncate(from),
            2 => {
                let again = text[from..to].to_vec();
                let at = dice.below(text.len() + 1);
                text.splice(at..at, again);
            }
            3 => text[from..to].reverse(),
            4 => {
                let odd = dice.one(&ODD_PIECES);
                text.splice(from..from, odd.bytes());
            }
            5 if from < text.len() => text[from] = any_byte(dice),
            _ => text.insert(from, any_byte(dice)),
        }
    }
    text
}

/// A short part of a text, perhaps empty.
fn span(dice: &mut Dice, text: &[u8]) -> (usize, usize) {
    let from = dice.below(text.len() + 1);
    (from, text.len().min(from + dice.below(9)))
}

/// A byte of the language, mostly; sometimes any of ASCII, rarely one that is not ASCII.
fn any_byte(dice: &mut Dice) -> u8 {
    match dice.below(60) {
        0 => dice.byte(),
        1..10 => dice.byte() & 127,
        _ => dice.one(b"ab_Zn09 \n\t\r@.;:{}-/*#=(),"),
    }
}

fn soup(dice: &mut Dice) -> Vec<u8> {
    let most = if dice.once_in(20) { 600 } else { 60 };
    let length = dice.below(most);
    match dice.below(4) {
        0 => (0..length).map(|_| dice.one(b"ab_Z09 \n\t@.;:{}-/*#=(),")).collect(),
        1 => (0..length).map(|_| dice.byte() & 127).collect(),
        _ => (0..length).map(|_| any_byte(dice)).collect(),
    }
}

fn comments(dice: &mut Dice) -> Vec<u8> {
    let parts = ["/*", "*/", "*", "/", "**", "\n", "#", "//", " ", "x", ";", "\r\n", "/**/", "*/\n", "\n\n@f"];
    joined(dice, &parts, 14)
}

fn joined(dice: &mut Dice, parts: &[&str], most: usize) -> Vec<u8> {
    let count = dice.between(1, most);
    (0..count).flat_map(|_| dice.one(parts).bytes().collect::<Vec<_>>()).collect()
}

fn numbers(dice: &mut Dice) -> Vec<u8> {
    let edges = [0, 1, 9, 10, 2_147_483_646, 2_147_483_647, 2_147_483_648, 2_147_483_649, 4_294_967_295, 4_294_967_296];
    let mut text = String::new();
    for _ in 0..dice.between(1, 8) {
        text.push_str(dice.one(&["", "", "-", "-", "--", "+", "- "]));
        text.push_str(dice.one(&["", "", "", "0", "00000000000"]));
        match dice.below(4) {
            0 => text.extend((0..dice.below(26)).map(|_| char::from(b'0' + dice.below(10) as u8))),
            _ => text.push_str(&dice.one::<u64>(&edges).to_string()),
        }
        text.push_str(dice.one(&["", " ", "\n", ";", ",", "x", "_", ".", "/**/"]));
    }
    text.into_bytes()
}

/// Names as long as they may be, words with something more, one spelling with each sigil.
fn names(dice: &mut Dice) -> Vec<u8> {
    let mut text = Vec::new();
    let shared: Vec<u8> = (0..70).map(|_| dice.one(b"aZ_09kq")).collect();
    for _ in 0..dice.between(1, 20) {
        let sigil: &str = dice.one(&["", "", "@", "."]);
        let start: &str = dice.one(&["x", "nop", "int", "true", "i", "A", "add", "ad"]);
        let name = [sigil.as_bytes(), start.as_bytes(), &shared].concat();
        let usual = sigil.len() + start.len() + dice.below(4);
        let length = if dice.once_in(12) { dice.between(NAME - 1, NAME + 1) } else { usual };
        text.extend_from_slice(&name[..length]);
        text.extend_from_slice(dice.one::<&str>(&[" ", " ", " ", "\n", ";", ":", "-1", "/**/"]).as_bytes());
    }
    text
}

/// A text at one of the limits, or a little below or above, and then something more.
fn near_a_limit(dice: &mut Dice) -> Vec<u8> {
    let near = |dice: &mut Dice, limit: usize| limit + dice.below(5) - 2;
    let mut text = match dice.below(4) {
        0 => short_names(near(dice, NAMES)),
        1 => b";".repeat(near(dice, TOKENS)),
        2 => {
            let names = near(dice, NAMES);
            [short_names(names), b"=".repeat(near(dice, TOKENS) - names)].concat()
        }
        _ => program(dice),
    };
    for _ in 0..dice.below(3) {
        let more = joined(dice, &["\n", " ", "x", ";", "nop", "2147483648", "//\n", "/* */", "Aa", "@q", "@Aa"], 3);
        text.extend(more);
    }
    if dice.once_in(2) {
        text.extend(dice.one(&ODD_PIECES).bytes());
    }
    if dice.once_in(4) {
        let length = near(dice, BYTES);
        let padding = dice.one(b" \n;#0");
        text.resize(length.max(text.len()), padding);
    }
    text
}

/// So many names of two bytes, each with a blank behind it. None is a word: all begin with a capital.
pub fn short_names(count: usize) -> Vec<u8> {
    let second = (b'a'..=b'z').chain(b'A'..=b'Z').chain(b'0'..=b'9');
    let pairs = (b'A'..=b'Z').flat_map(|first| second.clone().map(move |second| [first, second, b' ']));
    pairs.take(count).flatten().collect()
}

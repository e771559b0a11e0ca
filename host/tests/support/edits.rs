//! Edits: an accepted text of several functions, one of them, and a text to stand in its place. Most keep the
//! function's header; some are what a premise of demand 3 leaves out. And what recheck may be called with beside these:
//! tables that check didn't write, or not for that text. A seed gives the same ones each time.
use super::dice::Dice;
use super::model::{self, BYTES, NAMES, ROW, TABLE, TOKENS};
use super::programs::{Functions, chain, slip};
use super::records::Cells;
use super::said::{Said, SaidToken};
use super::words::push;
use super::{grammar, texts};

pub struct Edit {
    pub old: Vec<u8>,
    /// What a check says of the old text: it is accepted.
    pub before: Said,
    /// Which of its functions is replaced.
    pub number: usize,
    pub new: Vec<u8>,
}

/// The edits of a run, in order. Each depends on the seed and on its own number alone.
pub fn generated(seed: u64, numbers: std::ops::Range<u64>) -> impl Iterator<Item = Edit> {
    numbers.map(move |number| one(&mut Dice::new(seed, number)))
}

/// What recheck is called with.
pub struct Quadruple {
    pub old: Vec<u8>,
    /// The bytes of a header table; any others too.
    pub table: Vec<u8>,
    pub number: u32,
    pub new: Vec<u8>,
}

/// The edits of a run once more, each with something changed beside the new text: a table that check didn't write,
/// another old text, a number that no function has.
pub fn with_other_tables(seed: u64, numbers: std::ops::Range<u64>) -> impl Iterator<Item = Quadruple> {
    numbers.map(move |number| {
        let mut dice = Dice::new(seed, number);
        let edit = one(&mut dice);
        with_another_table(&mut dice, edit)
    })
}

/// The header table of a text as check writes it; none of a text that is refused.
pub fn table_of(said: &Said) -> Option<Vec<u32>> {
    let mut table = Cells::of_check(said).functions;
    let is_accepted = !table.is_empty();
    table.resize(TABLE, 0);
    is_accepted.then_some(table)
}

fn one(dice: &mut Dice) -> Edit {
    loop {
        let (count, blocks) = match dice.below(600) {
            0 => (dice.between(60, 64), 1),
            1..10 => (dice.between(5, 12), 4),
            10..60 => (dice.between(2, 4), 6),
            _ => (dice.one(&[1, 2, 2, 2, 3, 3]), 3),
        };
        let functions = Functions::new(dice, count, blocks);
        let tokens: Vec<String> = (0..count).flat_map(|number| functions.one(dice, number)).collect();
        let text = grammar::laid_out_plainly(dice, &tokens);
        // Few, since the Rust's lexer takes time by the square of a text's length.
        let (old, in_front) = if dice.once_in(600) { near_a_limit(dice, &text) } else { (text, 0) };
        let before = model::check(&old).said;
        if before.number() == 0 {
            let number = dice.below(count);
            let new = replacement(dice, &functions, count, number);
            return Edit { old, before, number: in_front + number, new };
        }
    }
}

/// A text that has little room left: of bytes, of tokens, or of names. With it, how many functions now stand in front.
fn near_a_limit(dice: &mut Dice, text: &[u8]) -> (Vec<u8>, usize) {
    let Said::Accepted { tokens, names, .. } = model::read(text) else { return (text.to_vec(), 0) };
    let left = |limit: usize, used: usize, leave: usize| limit.saturating_sub(used + leave);
    let filling = match dice.below(3) {
        0 => {
            let fill = dice.one(b" \n\t");
            vec![fill; left(BYTES, text.len(), dice.below(30))]
        }
        1 => {
            let count = left(TOKENS, tokens.len() + 3, dice.below(12)) / 2;
            format!("@fill{{{}}}\n", "nop;".repeat(count.max(1))).into_bytes()
        }
        _ => {
            let count = left(NAMES, names.len() + 1, dice.below(4));
            prints("@fill{", count.max(1))
        }
    };
    let functions = usize::from(filling.starts_with(b"@"));
    match dice.once_in(2) {
        true => ([&filling, text].concat(), functions),
        false => ([text, &filling].concat(), 0),
    }
}

/// A function that prints so many names of its own.
fn prints(header: &str, count: usize) -> Vec<u8> {
    let names = texts::short_names(count);
    let prints = names.chunks(3).flat_map(|name| [b"print ", &name[..2], b";"].concat());
    header.bytes().chain(prints).chain(*b"}").collect()
}

// ---- what comes in a function's place ----------------------------------------------------------------------------------

fn replacement(dice: &mut Dice, functions: &Functions, count: usize, number: usize) -> Vec<u8> {
    let mut tokens = match dice.once_in(2) {
        true => functions.one(dice, number),
        false => functions.one_with_other_formals(dice, number),
    };
    match dice.below(1000) {
        0..260 => {}
        260..640 => slips_in_the_body(dice, &mut tokens),
        640..720 => slip(dice, &mut tokens),
        720..760 => {
            let other = dice.below(count);
            tokens = functions.one(dice, other);
        }
        760..820 => {
            if dice.once_in(3) {
                slips_in_the_body(dice, &mut tokens);
            }
            behind_the_brace(dice, functions, count, &mut tokens);
        }
        820..890 => {
            let whole = laid_out(dice, &tokens);
            return damaged(dice, whole);
        }
        890..920 => return grammar::laid_out(dice, &tokens),
        920..950 => at_a_limit(dice, &mut tokens),
        950..954 => labels_at_a_limit(dice, &mut tokens),
        954..960 => return beyond_the_lexer(dice, &tokens),
        _ => {
            let number = dice.below(count);
            return with_a_second(dice, functions, number, &tokens);
        }
    }
    laid_out(dice, &tokens)
}

/// A text with these tokens and nothing before the first or behind the last.
fn laid_out(dice: &mut Dice, tokens: &[String]) -> Vec<u8> {
    let text = grammar::laid_out_plainly(dice, tokens);
    let Said::Accepted { tokens, .. } = model::read(&text) else { return text };
    match &tokens[..] {
        [first, .., SaidToken { kind: "}", place, .. }, _] => text[first.place..=*place].to_vec(),
        [first, ..] => text[first.place..].to_vec(),
        [] => text,
    }
}

/// A function's tokens in two: its header with the brace, and its body without the closing one.
fn header_and_body(tokens: &[String]) -> (Vec<String>, Vec<String>) {
    let brace = tokens.iter().position(|token| token == "{").expect("a function has a body");
    (tokens[..=brace].to_vec(), tokens[brace + 1..tokens.len() - 1].to_vec())
}

fn slips_in_the_body(dice: &mut Dice, tokens: &mut Vec<String>) {
    let (header, mut body) = header_and_body(tokens);
    let slips = dice.one(&[1, 1, 1, 1, 2, 2, 3]);
    (0..slips).for_each(|_| slip(dice, &mut body));
    *tokens = [header, body, vec!["}".to_owned()]].concat();
}

/// Something behind the closing brace, with a brace at its end.
fn behind_the_brace(dice: &mut Dice, functions: &Functions, count: usize, tokens: &mut Vec<String>) {
    match dice.below(4) {
        0 => {
            let number = dice.below(count);
            tokens.extend(functions.one(dice, number));
        }
        1 => push(tokens, &["@more", "{", "ret", ";", "}"]),
        2 => push(tokens, &["@", "}"]),
        _ => {
            let stray = dice.one(&["}", "nop", "x", ";", ".a", "5", "int", "{"]);
            push(tokens, &[stray, "}"]);
        }
    }
}

/// Bytes lost, added or changed; most times the text still ends with a brace.
fn damaged(dice: &mut Dice, whole: Vec<u8>) -> Vec<u8> {
    let mut text = texts::damaged(dice, whole);
    if text.last() != Some(&b'}') && !dice.once_in(4) {
        text.push(b'}');
    }
    text
}

/// A function at a limit on formals or arguments, or a little below or above.
fn at_a_limit(dice: &mut Dice, tokens: &mut Vec<String>) {
    let (header, body) = header_and_body(tokens);
    let (name, count) = (header[0].clone(), dice.between(15, 18));
    tokens.clear();
    if dice.once_in(2) {
        push(tokens, &[&name, "("]);
        (0..count).for_each(|_| push(tokens, &["n", ":", "int", ","]));
        *tokens.last_mut().expect("a comma") = ")".to_owned();
        push(tokens, &["{"]);
        tokens.extend(body);
        push(tokens, &["}"]);
    } else {
        tokens.extend(header);
        tokens.extend(body);
        push(tokens, &[".last", ":", "n", ":", "int", "=", "const", "1", ";", "call", &name]);
        (0..count).for_each(|_| push(tokens, &["n"]));
        push(tokens, &[";", "ret", ";", "}"]);
    }
}

/// A function at the limit on labels, or a little below or above.
fn labels_at_a_limit(dice: &mut Dice, tokens: &mut Vec<String>) {
    let (mut header, mut body) = header_and_body(tokens);
    if dice.once_in(2) {
        let count = dice.between(253, 257);
        (0..count).for_each(|number| push(&mut header, &[&format!(".l{number}"), ":"]));
    } else {
        let mut other = Vec::new();
        chain(dice, &mut other);
        (_, body) = header_and_body(&other);
    }
    *tokens = [header, body, vec!["}".to_owned()]].concat();
}

/// A function that doesn't lex by itself, by a limit.
fn beyond_the_lexer(dice: &mut Dice, tokens: &[String]) -> Vec<u8> {
    let (header, _) = header_and_body(tokens);
    let header = header.join(" ");
    let near = |dice: &mut Dice, limit: usize| limit + dice.below(5) - 2;
    match dice.below(4) {
        0 => {
            let mut text = header.into_bytes();
            text.extend(b"ret;");
            let length = near(dice, BYTES);
            text.resize(length - 1, b' ');
            text.push(b'}');
            text
        }
        1 => format!("{header}{}}}", "nop;".repeat(near(dice, TOKENS / 2) - 5)).into_bytes(),
        2 => {
            let count = near(dice, NAMES) - 3;
            prints(&header, count)
        }
        _ => format!("{header}print {};}}", "n".repeat(near(dice, 64))).into_bytes(),
    }
}

/// Two functions, the first of which is wrong beyond its statements: in its types, its labels or its blocks.
fn with_a_second(dice: &mut Dice, functions: &Functions, number: usize, tokens: &[String]) -> Vec<u8> {
    let (header, body) = header_and_body(tokens);
    let wrong = dice.one(&[&["ret", "nowhere_set", ";"][..], &["jmp", ".nowhere", ";"], &[".x", ":", "nop", ";"]]);
    let mut all = [header, body].concat();
    push(&mut all, &[".wrong", ":"]);
    push(&mut all, wrong);
    push(&mut all, &["}"]);
    all.extend(functions.one(dice, number));
    laid_out(dice, &all)
}

// ---- tables of another hand --------------------------------------------------------------------------------------------

fn with_another_table(dice: &mut Dice, edit: Edit) -> Quadruple {
    let Edit { mut old, before, number, new } = edit;
    let mut table = table_of(&before).expect("the old text is accepted");
    let mut number = number as u32;
    match dice.below(12) {
        0 => number = dice.one(&[number + 1, table[0], table[0] + 1, 63, 64, u32::MAX]),
        1 => table[0] = dice.one(&[0, number, number + 1, table[0] + 1, 64, 65, u32::MAX]),
        2 => swap_rows(dice, &mut table),
        3 => other_text(dice, &mut old),
        _ => {
            let changes = dice.one(&[1, 1, 1, 2, 3]);
            (0..changes).for_each(|_| change_a_cell(dice, &mut table, number as usize, old.len()));
        }
    }
    let table = table.iter().flat_map(|cell| cell.to_le_bytes()).collect();
    Quadruple { old, table: of_another_length(dice, table), number, new }
}

/// A cell of a row, most times one that recheck looks at, and a value that is in its range, at its edge, or far
/// outside.
fn change_a_cell(dice: &mut Dice, table: &mut [u32], number: usize, length: usize) {
    let row = if dice.once_in(2) { number } else { dice.below(table[0].clamp(1, 64) as usize + 1).min(63) };
    let row = &mut table[1 + ROW * row..][..ROW];
    let (length, place, name) = (length as u32, row[3], row[4]);
    let at = dice.one(&[3, 3, 4, 4, 5, 6, 6, 7, 11, 12, 12, 14, 16, 18, 44]);
    let at = if dice.once_in(6) { dice.below(ROW) } else { at };
    // A cell may have been changed before.
    let (before, behind) = (|cell: u32| cell.wrapping_sub(1), |cell: u32| cell.wrapping_add(1));
    let near = match at {
        3 => [0, 1, before(place), behind(place), length.saturating_sub(name), length, 16_384, 16_385],
        4 => [0, 1, 2, before(name), behind(name), 64, 65, length.saturating_sub(place)],
        5 => [0, 1, 2, behind(row[5]), 100, 16_384, 16_385, 16_386],
        6 => [0, 1, 2, 3, 4, 5, 1, 2],
        7 => [0, 1, 2, 3, 62, 63, 64, 65],
        11 => [0, 1, 2, 3, 255, 256, 257, 258],
        12 => [0, 1, 2, 3, 15, 16, 17, 18],
        _ => [0, 1, 2, 3, 4, 5, 1, 2],
    };
    row[at] = if dice.once_in(10) { u32::MAX - dice.below(2) as u32 } else { dice.one(&near) };
}

/// The headers of two functions changed for each other, or one of them twice.
fn swap_rows(dice: &mut Dice, table: &mut [u32]) {
    let count = table[0] as usize;
    let (one, two) = (1 + ROW * dice.below(count), 1 + ROW * dice.below(count));
    let row = table[one..][..ROW].to_vec();
    if dice.once_in(2) {
        table.copy_within(two..two + ROW, one);
    }
    table[two..][..ROW].copy_from_slice(&row);
}

/// The old text is another one than the table's: longer, shorter, too long, with a byte changed, or not ASCII.
fn other_text(dice: &mut Dice, old: &mut Vec<u8>) {
    let at = dice.below(old.len());
    match dice.below(6) {
        0 => old.truncate(at),
        1 => old.resize(BYTES, b' '),
        2 => old.resize(BYTES + 1, b' '),
        3 => old[at] = 0xff,
        4 => old[at] = dice.one(b"@a}"),
        _ => old.insert(at, b' '),
    }
}

/// Most times the table as it is; bytes lost at its end, or more behind it.
fn of_another_length(dice: &mut Dice, mut table: Vec<u8>) -> Vec<u8> {
    let length = match dice.below(40) {
        0 => dice.one(&[0, 1, 3, 4, 184, table.len() / 2]),
        1 => table.len() - dice.between(1, 5),
        2 => table.len() + dice.one(&[1, 2, 3, 4, 5, 1000]),
        _ => table.len(),
    };
    table.resize(length, 0xff);
    table
}

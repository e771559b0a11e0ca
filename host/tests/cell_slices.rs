//! The lengths of the lent slices of cells: one short, exact, and longer; and what the functions leave in them. The same of
//! slices of bytes is in slices.rs.
mod support;

use std::fmt::Debug;

use pitchsleet::raw::{self, CheckAnswer, MESSAGE_BYTES, ReadAnswer, TABLE_CELLS};
use support::lent_cells::LentCells;

/// The sizes of the slices, in the functions' order.
const SIZES: [usize; 7] = [
    raw::TOKENS_CELLS,
    raw::NAMES_CELLS,
    raw::FUNCTIONS_CELLS,
    raw::ITEMS_CELLS,
    raw::ARGUMENTS_CELLS,
    raw::BLOCKS_CELLS,
    raw::PREDECESSORS_CELLS,
];

/// The index of the message among all that is lent.
const MESSAGE: usize = SIZES.len();

/// Texts of each kind with the numbers that check and read answer with: accepted, refused by reading, by parsing and by
/// typing, not ASCII, and too long to be read.
fn texts() -> Vec<(Vec<u8>, u32, u32)> {
    let too_long = vec![b' '; raw::TEXT_BYTES + 1];
    let texts: [(&[u8], u32, u32); 8] = [
        (b"", 0, 0),
        (b"@f { nop; }", 0, 0),
        (b"@f(a: int) { .a: call @f a; br q .a .b; .b: x: int = add a a; }", 0, 0),
        (b"\n$", 3, 3),
        (b"x \0", 3, 3),
        (b"@f { nop }", 5, 0),
        (b"@f { x: int = const true; }", 17, 0),
        (b"\x80", 1, 1),
    ];
    let texts = texts.into_iter().map(|(text, check, read)| (text.to_vec(), check, read));
    texts.chain([(too_long, 31, 31)]).collect()
}

/// New texts for `@f` of the old one, with the number that recheck answers with.
fn new_texts() -> Vec<(Vec<u8>, u32)> {
    let too_long = vec![b' '; raw::TEXT_BYTES + 1];
    let texts: [(&[u8], u32); 11] = [
        (b"@f { nop; }", 0),
        (b"@f { x: int = const 1;\n.l: call @g x; br x .l .l; }", 0),
        (b"@f { nop; $ }", 3),
        (b"\x80", 1),
        (b"", 40),
        (b"@f { nop; } ", 40),
        (b"@f { nop; } @g { nop; }", 40),
        (b"@h { nop; }", 41),
        (b"@f { nop }", 5),
        (b"@f { }", 22),
        (b"@f { x: int = const true; }", 17),
    ];
    let texts = texts.into_iter().map(|(text, number)| (text.to_vec(), number));
    texts.chain([(too_long, 31)]).collect()
}

const OLD: &[u8] = b"@g(a: int) { nop; } \n@f { ret; }";

fn table() -> Vec<u32> {
    let mut lent = exact();
    assert_eq!(lent.check(OLD).number, 0);
    lent.slices[2].clone()
}

fn exact() -> LentCells {
    LentCells::new(SIZES, MESSAGE_BYTES)
}

/// A call: the text goes in, and what is lent is written.
type Call<'c, A> = &'c dyn Fn(&mut LentCells, &[u8]) -> A;

/// Slices of their sizes, but for those that are changed.
fn of_lengths(change: impl Fn(usize, usize) -> usize) -> LentCells {
    let mut lengths = SIZES;
    lengths.iter_mut().enumerate().for_each(|(at, length)| *length = change(at, *length));
    LentCells::new(lengths, change(MESSAGE, MESSAGE_BYTES))
}

/// With each of the slices that a function is lent too short, by one, by all, or with all others longer, and with all of
/// them: 30, and nothing is written.
fn short_slices<A: PartialEq + Debug>(call: Call<'_, A>, text: &[u8], lends: &[usize], short: &A) {
    let refused = |mut lent: LentCells, what: &str| {
        let before = lent.clone();
        assert_eq!(call(&mut lent, text), *short, "{what}");
        assert!(lent == before, "{what}: something was written");
    };
    for &short in lends {
        refused(of_lengths(|at, size| size - usize::from(at == short)), &format!("slice {short} one short"));
        refused(of_lengths(|at, size| if at == short { 0 } else { size }), &format!("slice {short} empty"));
        refused(
            of_lengths(|at, size| if at == short { size - 1 } else { size + 9 }),
            &format!("only slice {short} short"),
        );
    }
    refused(of_lengths(|_, size| size - 1), "all one short");
    refused(of_lengths(|_, _| 0), "all empty");
}

/// With each slice longer, and with all: the same answer, the same contents, and zeros behind. What is not lent stays.
fn longer_slices<A: PartialEq + Debug>(call: Call<'_, A>, text: &[u8], lends: &[usize]) {
    let mut whole = exact();
    let answer = call(&mut whole, text);
    for &longer in lends {
        for more in [1, 7, 1000] {
            holds_the_same(
                call,
                text,
                of_lengths(|at, size| size + if at == longer { more } else { 0 }),
                (&answer, &whole),
            );
        }
    }
    holds_the_same(
        call,
        text,
        of_lengths(|at, size| size + if lends.contains(&at) { at + 1 } else { 0 }),
        (&answer, &whole),
    );
}

fn holds_the_same<A: PartialEq + Debug>(call: Call<'_, A>, text: &[u8], mut lent: LentCells, whole: (&A, &LentCells)) {
    let (answer, whole) = whole;
    assert_eq!(call(&mut lent, text), *answer);
    for (at, (found, expected)) in lent.slices.iter().zip(&whole.slices).enumerate() {
        assert!(found.starts_with(expected), "slice {at} differs");
        assert!(found[expected.len()..].iter().all(|&cell| cell == 0), "slice {at}: no zeros behind");
    }
    assert!(lent.message.starts_with(&whole.message), "the message differs");
    assert!(lent.message[MESSAGE_BYTES..].iter().all(|&byte| byte == 0), "no zeros behind the message");
}

/// What a slice held before has no part in the answer: the same of zeros, of a pattern and of what a text before left.
fn dirty_slices<A: PartialEq + Debug>(call: Call<'_, A>, text: &[u8], lends: &[usize], before: &[u8]) {
    let mut clean = exact();
    clean.slices.iter_mut().for_each(|slice| slice.fill(0));
    clean.message.fill(0);
    let (mut pattern, mut used) = (exact(), exact());
    call(&mut used, before);
    let answers = [&mut clean, &mut pattern, &mut used].map(|lent| call(lent, text));
    assert!(answers[0] == answers[1] && answers[0] == answers[2]);
    for &at in lends.iter().filter(|at| **at < MESSAGE) {
        assert!(clean.slices[at] == pattern.slices[at] && clean.slices[at] == used.slices[at], "slice {at}");
    }
    assert!(clean.message == pattern.message && clean.message == used.message, "the message");
}

/// All three, for a function that is lent these slices, of texts with their numbers.
fn each_length<A: PartialEq + Debug>(
    call: Call<'_, A>,
    lends: &[usize],
    short: &A,
    texts: &[(Vec<u8>, u32)],
    number: fn(&A) -> u32,
) {
    for (text, expected) in texts {
        assert_eq!(number(&call(&mut exact(), text)), *expected, "{}", text[..text.len().min(80)].escape_ascii());
        short_slices(call, text, lends, short);
        longer_slices(call, text, lends);
        dirty_slices(call, text, lends, b"@f(a: int): int { .l: b: int = call @f a; br c .l .m; .m: ret b; }");
    }
}

/// What read is lent, and what check and recheck are.
const BY_READ: &[usize] = &[0, 1, MESSAGE];
const BY_CHECK: &[usize] = &[0, 1, 2, 3, 4, 5, 6, MESSAGE];

const SHORT_READ: ReadAnswer = ReadAnswer { number: 30, line: 0, place: 0, tokens: 0, names: 0 };

const SHORT: CheckAnswer = CheckAnswer {
    number: 30,
    line: 0,
    place: 0,
    tokens: 0,
    names: 0,
    functions: 0,
    items: 0,
    arguments: 0,
    blocks: 0,
    predecessors: 0,
};

/// The crate's sizes are those that the tests have from the document.
#[test]
fn sizes_of_the_slices() {
    assert_eq!(SIZES, support::records::SIZES);
    assert_eq!(SIZES.iter().sum::<usize>() * raw::CELL_BYTES, raw::CHECK_OUT_BYTES);
    assert_eq!(TABLE_CELLS * raw::CELL_BYTES, raw::TABLE_BYTES);
}

#[test]
fn read_with_slices_of_each_length() {
    let texts: Vec<_> = texts().into_iter().map(|(text, _, number)| (text, number)).collect();
    each_length(&LentCells::read, BY_READ, &SHORT_READ, &texts, |answer| answer.number);
}

#[test]
fn check_with_slices_of_each_length() {
    let texts: Vec<_> = texts().into_iter().map(|(text, number, _)| (text, number)).collect();
    each_length(&LentCells::check, BY_CHECK, &SHORT, &texts, |answer| answer.number);
}

#[test]
fn recheck_with_slices_of_each_length() {
    let table = table();
    let recheck = |lent: &mut LentCells, new: &[u8]| lent.recheck(OLD, &table, 1, new);
    each_length(&recheck, BY_CHECK, &SHORT, &new_texts(), |answer| answer.number);
}

/// 42 whatever the new text is, by no table, by a number that no function has, and by an old text that is too long.
#[test]
fn recheck_by_no_headers_with_slices_of_each_length() {
    let (table, long) = (table(), [OLD, &vec![b' '; raw::TEXT_BYTES]].concat());
    let by_no_table = |lent: &mut LentCells, new: &[u8]| lent.recheck(OLD, &[], 1, new);
    let by_no_number = |lent: &mut LentCells, new: &[u8]| lent.recheck(OLD, &table, 2, new);
    let by_long_text = |lent: &mut LentCells, new: &[u8]| lent.recheck(&long, &table, 1, new);
    let texts: Vec<_> = new_texts().into_iter().map(|(text, _)| (text, 42)).collect();
    for call in [&by_no_table as Call<'_, CheckAnswer>, &by_no_number, &by_long_text] {
        each_length(call, BY_CHECK, &SHORT, &texts[..4], |answer| answer.number);
    }
}

/// A read is lent two slices, and nothing else changes.
#[test]
fn read_writes_its_two_slices_alone() {
    let mut lent = exact();
    assert_eq!(lent.read(b"@f { nop; }").number, 0);
    assert!(lent.slices[2..] == exact().slices[2..]);
    assert!(lent.slices[0] != exact().slices[0] && lent.slices[1] != exact().slices[1]);
}

/// A table that is shorter by a cell is refused with 42, and of a longer one no more is read than its size.
#[test]
fn tables_of_each_length() {
    let table = table();
    assert_eq!(table.len(), TABLE_CELLS);
    let recheck = |table: &[u32]| {
        let mut lent = exact();
        let answer = lent.recheck(OLD, table, 1, b"@f { x: int = const 1; call @g x; }");
        (answer, lent)
    };
    let whole = recheck(&table);
    assert_eq!(whole.0.number, 0);
    for length in [0, 1, 2, 46, 91, TABLE_CELLS - 1] {
        let (answer, lent) = recheck(&table[..length]);
        assert_eq!(answer, CheckAnswer { number: 42, ..CheckAnswer::default() }, "{length} cells");
        only_a_message(&lent, BY_CHECK);
        assert!(lent.message.starts_with(b"[line 0] Error : bad header table.\n"));
    }
    for more in [1, 2, 45, 1000] {
        assert!(recheck(&[table.clone(), vec![u32::MAX; more]].concat()) == whole, "{more} cells more");
    }
}

#[test]
fn an_acceptance_leaves_the_message_zero() {
    let mut lent = exact();
    assert_eq!(lent.read(b"x"), ReadAnswer { tokens: 2, names: 1, ..ReadAnswer::default() });
    assert!(lent.message.iter().all(|&byte| byte == 0));
    holds(&lent.slices[0], &[1, 0, 1, 0, 38, 0, 1, 1]);
    holds(&lent.slices[1], &[0, 1]);
}

/// The records of a whole program, cell by cell, as docs/INTERFACE.md has them, and zeros behind.
#[test]
fn a_check_s_records() {
    let mut lent = exact();
    let answer = lent.check(b"@f(a: int): int { .l: b: int = call @f a; br c .l .m; .m: ret b; }");
    let counts = CheckAnswer {
        tokens: 31,
        names: 6,
        functions: 1,
        items: 5,
        arguments: 1,
        blocks: 2,
        predecessors: 2,
        ..CheckAnswer::default()
    };
    assert_eq!(answer, counts);
    assert!(lent.message.iter().all(|&byte| byte == 0));
    let [tokens, names, functions, items, arguments, blocks, predecessors] = &lent.slices;
    assert_eq!(tokens[..8], [2, 0, 1, 0, 25, 0, 1, 2]);
    assert_eq!(tokens[30 * raw::TOKEN_CELLS..][..8], [38, 0, 1, 66, 0, 0, 0, 0]);
    holds(names, &[0, 2, 3, 1, 18, 2, 22, 1, 45, 1, 50, 2]);
    holds(functions, &[1, 0, 0, 29, 0, 2, 1, 1, 0, 0, 5, 0, 2, 1, 1, 1]);
    let expected = [
        [1, 9, 0, 0, 0, 0, 2, 0],
        [6, 15, 3, 1, 0, 4, 0, 1],
        [10, 19, 0, 0, 4, 0, 2, 5],
        [1, 24, 0, 0, 0, 0, 5, 0],
        [12, 26, 0, 0, 3, 0, 0, 0],
    ];
    holds(items, &expected.concat());
    holds(arguments, &[1, 1]);
    holds(blocks, &[1, 2, 2, 0, 1, 0, 1, 0, 4, 1, 0, 0, 0, 1, 1, 0]);
    holds(predecessors, &[0, 0]);
}

/// The records of a rechecked function are those of a check of it, but for lines and function types.
#[test]
fn a_recheck_s_records() {
    let mut lent = exact();
    let answer = lent.recheck(OLD, &table(), 1, b"@f { x: int = const 1;\n.l: call @g x; br x .l .l; }");
    assert_eq!((answer.number, answer.functions, answer.blocks, answer.predecessors), (0, 1, 2, 2));
    assert!(lent.message.iter().all(|&byte| byte == 0));
    let [tokens, _, functions, items, ..] = &lent.slices;
    assert_eq!(tokens[..8], [2, 0, 2, 0, 27, 0, 2, 3], "lines start at 2");
    holds(functions, &[1, 0, 0, 20, 0, 2, 2, 3, 1, 0, 5, 0, 2, 0]);
    assert_eq!(items[24..32], [5, 11, 0, 0, 3, 4, 0, 1], "the callee's type is the first");
}

#[test]
fn a_refusal_leaves_the_records_zero() {
    for (text, check, read) in texts() {
        let mut lent = exact();
        let answer = lent.read(&text);
        if read != 0 {
            let ReadAnswer { number, line, place, .. } = answer;
            assert_eq!(answer, ReadAnswer { number, line, place, ..ReadAnswer::default() });
            only_a_message(&lent, BY_READ);
        }
        if check != 0 {
            let answer = lent.check(&text);
            only_a_refusal(answer, check);
            only_a_message(&lent, BY_CHECK);
        }
    }
    for (new, number) in new_texts().into_iter().filter(|(_, number)| *number != 0) {
        let mut lent = exact();
        only_a_refusal(lent.recheck(OLD, &table(), 1, &new), number);
        only_a_message(&lent, BY_CHECK);
    }
}

/// The stack that a call takes at most, as `Reader`'s documentation says, with what the thread itself needs.
#[test]
fn stack_of_a_call() {
    let many = |count: usize, each: &dyn Fn(usize) -> String| (0..count).map(each).collect::<String>();
    let functions = many(64, &|i| format!("@f{i}(a: int) {{ nop; }}\n"));
    let mut lent = exact();
    assert_eq!(lent.check(functions.as_bytes()).number, 0);
    let table = lent.slices[2].clone();
    let loops = many(255, &|i| format!(".l{i}: br q .l{} .l{};", (i + 1) % 255, i / 2));
    let calls = many(64, &|i| format!("call @f{i} a;"));
    let bodies = [loops, calls, "ret x;".to_owned(), "$".to_owned(), many(16_000, &|_| "\n".to_owned())];
    for text in bodies.map(|body| format!("@f63(a: int) {{ {body} }}").into_bytes()) {
        let (functions, table) = (functions.clone().into_bytes(), table.clone());
        runs_in(8, text.clone(), |lent, text| lent.read(text).number);
        runs_in(16, text.clone(), |lent, text| lent.check(text).number);
        runs_in(28, text, move |lent, text| lent.recheck(&functions, &table, 63, text).number);
    }
}

fn runs_in(kibibytes: usize, text: Vec<u8>, call: impl FnOnce(&mut LentCells, &[u8]) -> u32 + Send + 'static) {
    let mut lent = exact();
    let thread = std::thread::Builder::new().stack_size((kibibytes + 8) * 1024);
    let number = thread.spawn(move || call(&mut lent, &text)).expect("a thread").join().expect("no panic");
    assert_ne!(number, 30);
}

fn only_a_refusal(answer: CheckAnswer, expected: u32) {
    let CheckAnswer { number, line, place, .. } = answer;
    assert_eq!(answer, CheckAnswer { number, line, place, ..CheckAnswer::default() });
    assert_eq!(number, expected);
}

/// These cells, and zeros up to the slice's end.
fn holds(slice: &[u32], cells: &[u32]) {
    let (front, rest) = slice.split_at(cells.len());
    assert_eq!(front, cells);
    assert!(rest.iter().all(|&cell| cell == 0), "no zeros behind {cells:?}");
}

fn only_a_message(lent: &LentCells, lends: &[usize]) {
    let lent_slices = lends.iter().filter_map(|at| lent.slices.get(*at));
    assert!(lent_slices.flatten().all(|&cell| cell == 0));
    let end = lent.message.iter().position(|&byte| byte == b'\n').expect("a newline");
    assert!(lent.message[end + 1..].iter().all(|&byte| byte == 0));
}

//! The lengths of the lent slices: one short, exact, and longer.
use std::fmt::Debug;

use pitchsleet::Reader;
use pitchsleet::raw::{self, CHECK_OUT_BYTES, CheckAnswer, MESSAGE_BYTES, OUT_BYTES, ReadAnswer, TABLE_BYTES};

/// Texts of each kind: accepted, refused by reading, by parsing and by typing, not ASCII, and too long to be read.
fn texts() -> Vec<Vec<u8>> {
    let too_long = vec![b' '; raw::TEXT_BYTES + 1];
    let texts: [&[u8]; 8] = [
        b"",
        b"@f { nop; }",
        b"@f(a: int) { .a: call @f a; br q .a .b; .b: x: int = add a a; }",
        b"\n$",
        b"x \0",
        b"@f { nop }",
        b"@f { x: int = const true; }",
        b"\x80",
    ];
    texts.into_iter().map(<[u8]>::to_vec).chain([too_long]).collect()
}

/// A pattern in which every byte differs from its neighbours, and none is zero.
fn pattern(length: usize) -> Vec<u8> {
    (0..length).map(|i| (i % 251) as u8 + 1).collect()
}

/// A C function: what it is lent, and how it answers 30.
struct Lent<A> {
    call: fn(&[u8], &mut [u8], &mut [u8]) -> A,
    out: usize,
    short: A,
}

const READ: Lent<ReadAnswer> =
    Lent { call: raw::read, out: OUT_BYTES, short: ReadAnswer { number: 30, line: 0, place: 0, tokens: 0, names: 0 } };

const CHECK: Lent<CheckAnswer> = Lent { call: raw::check, out: CHECK_OUT_BYTES, short: SHORT };

/// The text in the place of `@f`; and the same with a table that is no one's.
const RECHECK: Lent<CheckAnswer> = Lent { call: recheck, out: CHECK_OUT_BYTES, short: SHORT };
const RECHECK_BY_NO_TABLE: Lent<CheckAnswer> =
    Lent { call: |text, out, message| raw::recheck(OLD, &[], 0, text, out, message), ..RECHECK };

const SHORT: CheckAnswer = CheckAnswer {
    number: 30,
    line: 0,
    place: 0,
    tokens: 0,
    names: 0,
    functions: 0,
    items: 0,
    arguments: 0,
    blocks: 0,
    predecessors: 0,
};

const OLD: &[u8] = b"@g(a: int) { nop; } \n@f { ret; }";

fn table() -> Vec<u8> {
    Reader::new().check(OLD).expect("accepted").headers().table().to_vec()
}

fn recheck(text: &[u8], out: &mut [u8], message: &mut [u8]) -> CheckAnswer {
    raw::recheck(OLD, &table(), 1, text, out, message)
}

impl<A: PartialEq + Debug> Lent<A> {
    /// A call with slices of these lengths that hold the pattern, and what they hold after it.
    fn call(&self, text: &[u8], out: usize, message: usize) -> (A, Vec<u8>, Vec<u8>) {
        let (mut out, mut message) = (pattern(out), pattern(message));
        let answer = (self.call)(text, &mut out, &mut message);
        (answer, out, message)
    }

    fn short_slices(&self) {
        let lengths = [
            (self.out - 1, MESSAGE_BYTES),
            (self.out, MESSAGE_BYTES - 1),
            (self.out - 1, MESSAGE_BYTES - 1),
            (self.out - 1, MESSAGE_BYTES + 9),
            (self.out + 9, MESSAGE_BYTES - 1),
            (0, MESSAGE_BYTES),
            (self.out, 0),
            (0, 0),
        ];
        for text in texts() {
            for (out_length, message_length) in lengths {
                let (answer, out, message) = self.call(&text, out_length, message_length);
                assert_eq!(answer, self.short);
                assert!(out == pattern(out_length), "out has changed");
                assert!(message == pattern(message_length), "message has changed");
            }
        }
    }

    fn longer_slices(&self) {
        for text in texts() {
            let (answer, out, message) = self.call(&text, self.out, MESSAGE_BYTES);
            assert_ne!(answer, self.short);
            for (more_out, more_message) in [(1, 0), (0, 1), (1, 1), (7, 3), (4096, 1000)] {
                let longer = self.call(&text, self.out + more_out, MESSAGE_BYTES + more_message);
                assert_eq!(longer.0, answer);
                assert!(longer.1 == [out.clone(), vec![0; more_out]].concat(), "out differs");
                assert!(longer.2 == [message.clone(), vec![0; more_message]].concat(), "message differs");
            }
        }
    }
}

#[test]
fn a_short_slice_is_30_and_nothing_is_written() {
    READ.short_slices();
    CHECK.short_slices();
    RECHECK.short_slices();
    RECHECK_BY_NO_TABLE.short_slices();
}

#[test]
fn longer_slices_hold_the_same_and_zeros_behind() {
    READ.longer_slices();
    CHECK.longer_slices();
    RECHECK.longer_slices();
    RECHECK_BY_NO_TABLE.longer_slices();
}

/// A table that is shorter by a byte is refused with 42, and of a longer one no more is read than its size.
#[test]
fn tables_of_each_length() {
    let table = table();
    assert_eq!(table.len(), TABLE_BYTES);
    let new = b"@f { x: int = const 1; call @g x; }";
    let recheck = |table: &[u8]| {
        let (mut out, mut message) = (pattern(CHECK_OUT_BYTES), pattern(MESSAGE_BYTES));
        let answer = raw::recheck(OLD, table, 1, new, &mut out, &mut message);
        (answer, out, message)
    };
    let whole = recheck(&table);
    assert_eq!(whole.0.number, 0);
    for length in [0, 1, 3, 4, 364, TABLE_BYTES - 4, TABLE_BYTES - 1] {
        let (answer, out, message) = recheck(&table[..length]);
        assert_eq!(answer, CheckAnswer { number: 42, ..CheckAnswer::default() }, "{length} bytes");
        only_a_message(&out, &message);
        assert!(message.starts_with(b"[line 0] Error : bad header table.\n"));
    }
    for more in [1, 2, 3, 4, 5, 1000] {
        assert!(recheck(&[table.clone(), vec![0xff; more]].concat()) == whole, "{more} bytes more");
    }
}

/// Slices that `read` takes are too short for `check` and `recheck`.
#[test]
fn the_slices_of_read_are_short_for_check() {
    assert_eq!(CHECK.call(b"", OUT_BYTES, MESSAGE_BYTES).0.number, 30);
    assert_eq!(RECHECK.call(b"", OUT_BYTES, MESSAGE_BYTES).0.number, 30);
}

#[test]
fn an_acceptance_leaves_the_message_zero() {
    let (answer, out, message) = READ.call(b"x", OUT_BYTES, MESSAGE_BYTES);
    assert_eq!(answer, ReadAnswer { tokens: 2, names: 1, ..ReadAnswer::default() });
    assert!(message.iter().all(|&byte| byte == 0));
    let cells = cells(&out);
    assert_eq!(cells[..12], [1, 0, 1, 0, 38, 0, 1, 1, 0, 0, 0, 0]);
    assert_eq!(cells[16_384..16_388], [0, 1, 0, 0]);
}

fn cells(out: &[u8]) -> Vec<u32> {
    out.chunks(4).map(|cell| u32::from_le_bytes(cell.try_into().expect("four bytes"))).collect()
}

/// The records of a whole program, cell by cell, as docs/INTERFACE.md has them.
#[test]
fn a_check_s_records() {
    let text = b"@f(a: int): int { .l: b: int = call @f a; br c .l .m; .m: ret b; }";
    let (answer, out, message) = CHECK.call(text, CHECK_OUT_BYTES, MESSAGE_BYTES);
    let counts = CheckAnswer {
        tokens: 31,
        names: 6,
        functions: 1,
        items: 5,
        arguments: 1,
        blocks: 2,
        predecessors: 2,
        ..CheckAnswer::default()
    };
    assert_eq!(answer, counts);
    assert!(message.iter().all(|&byte| byte == 0));
    let cells = cells(&out);
    let functions = &cells[raw::FUNCTIONS_OFFSET / 4..];
    assert_eq!(functions[0], 1);
    assert_eq!(functions[1..16], [0, 0, 29, 0, 2, 1, 1, 0, 0, 5, 0, 2, 1, 1, 1]);
    let items = &cells[raw::ITEMS_OFFSET / 4..];
    let expected = [
        [1, 9, 0, 0, 0, 0, 2, 0],
        [6, 15, 3, 1, 0, 4, 0, 1],
        [10, 19, 0, 0, 4, 0, 2, 5],
        [1, 24, 0, 0, 0, 0, 5, 0],
        [12, 26, 0, 0, 3, 0, 0, 0],
    ];
    assert_eq!(items[..40], expected.concat());
    assert_eq!(cells[raw::ARGUMENTS_OFFSET / 4..][..4], [1, 1, 0, 0]);
    let blocks = &cells[raw::BLOCKS_OFFSET / 4..];
    assert_eq!(blocks[..16], [1, 2, 2, 0, 1, 0, 1, 0, 4, 1, 0, 0, 0, 1, 1, 0]);
    assert_eq!(cells[raw::PREDECESSORS_OFFSET / 4..][..4], [0, 0, 0, 0]);
}

#[test]
fn a_refusal_leaves_the_records_zero() {
    for text in [&b"@f { nop; } $"[..], b"\x80", b"/*"] {
        let (answer, out, message) = READ.call(text, OUT_BYTES, MESSAGE_BYTES);
        assert_eq!((answer.tokens, answer.names), (0, 0));
        only_a_message(&out, &message);
    }
    for text in [&b"@f { nop; } $"[..], b"\x80", b"@f { nop; } @g { ", b"@f { nop; } @g: int { nop; }", b"@f { }"] {
        let (answer, out, message) = CHECK.call(text, CHECK_OUT_BYTES, MESSAGE_BYTES);
        let CheckAnswer { number, line, place, .. } = answer;
        assert_eq!(answer, CheckAnswer { number, line, place, ..CheckAnswer::default() });
        only_a_message(&out, &message);
    }
    for text in [&b"@f { nop; $ }"[..], b"\x80", b"", b"@f { nop; } ", b"@h { nop; }", b"@f { ret x; }", b"@f { }"] {
        let (answer, out, message) = RECHECK.call(text, CHECK_OUT_BYTES, MESSAGE_BYTES);
        let CheckAnswer { number, line, place, .. } = answer;
        assert_eq!(answer, CheckAnswer { number, line, place, ..CheckAnswer::default() });
        assert_ne!(number, 0);
        only_a_message(&out, &message);
    }
}

/// The records of a rechecked function are those of a check of it, but for lines and function types.
#[test]
fn a_recheck_s_records() {
    let text = b"@f { x: int = const 1;\n.l: call @g x; br x .l .l; }";
    let (answer, out, message) = RECHECK.call(text, CHECK_OUT_BYTES, MESSAGE_BYTES);
    assert_eq!((answer.number, answer.functions, answer.blocks, answer.predecessors), (0, 1, 2, 2));
    assert!(message.iter().all(|&byte| byte == 0));
    let cells = cells(&out);
    assert_eq!(cells[..8], [2, 0, 2, 0, 27, 0, 2, 3], "lines start at 2");
    let functions = &cells[raw::FUNCTIONS_OFFSET / 4..];
    assert_eq!(functions[0], 1);
    assert_eq!(functions[1..14], [0, 0, 20, 0, 2, 2, 3, 1, 0, 5, 0, 2, 0], "its type is the second of the old text");
    let items = &cells[raw::ITEMS_OFFSET / 4..];
    assert_eq!(items[24..32], [5, 11, 0, 0, 3, 4, 0, 1], "the callee's type is the first");
}

fn only_a_message(out: &[u8], message: &[u8]) {
    assert!(out.iter().all(|&byte| byte == 0));
    let end = message.iter().position(|&byte| byte == b'\n').expect("a newline");
    assert!(message[end + 1..].iter().all(|&byte| byte == 0));
}

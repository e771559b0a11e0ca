//! `ReadingOf`, by which demand 3 is compared: it tells apart what differs in a function, in each kind of record and in each
//! cell, and nothing else.
mod support;

use std::collections::BTreeSet;

use support::against_model::Lent;
use support::demand_3::Written;
use support::readings::{moved_reading, reading_of};
use support::records::Cells;

/// What check writes for a text that is accepted.
fn accepted(text: &str) -> Written<'_> {
    let written = Written::by_check(&mut Lent::new(), text.as_bytes()).unwrap_or_else(|why| panic!("{text}: {why}"));
    assert_eq!(written.answer.number, 0, "refused: {text}");
    written
}

/// The kinds of records in which the function of one text, by its number, reads otherwise than that of another.
fn differing(one: (&str, usize), other: (&str, usize)) -> Vec<&'static str> {
    accepted(one.0).reading(one.1).differing(&accepted(other.0).reading(other.1))
}

/// The same with lines counted from the function's own.
fn moved_differing(one: (&str, usize), other: (&str, usize)) -> Vec<&'static str> {
    accepted(one.0).moved_reading(one.1).differing(&accepted(other.0).moved_reading(other.1))
}

/// Two texts that differ in one thing, and the kinds of records in which function 0 reads otherwise: those and no others.
#[test]
fn what_differs_reads_otherwise() {
    let pairs: [(&str, &str, &str, &[&str]); 26] = [
        ("an operator", "@f(a: int) { x: int = add a a; }", "@f(a: int) { x: int = sub a a; }", &["tokens"]),
        ("a constant", "@f { x: int = const 1; }", "@f { x: int = const 2; }", &["tokens"]),
        ("its sign", "@f { x: int = const  1; }", "@f { x: int = const -1; }", &["tokens"]),
        ("a place", "@f { nop; }", "@f {nop ; }", &["tokens"]),
        ("a line", "@f { nop; }", "@f {\nnop; }", &["tokens"]),
        ("the name's line", " @f { nop; }", "\n@f { nop; }", &["row", "tokens"]),
        ("the name", "@f { nop; }", "@g { nop; }", &["row", "tokens"]),
        ("a formal's type", "@f(a: int) { nop; }", "@f(a: bool) { nop; }", &["row", "tokens"]),
        ("a formal's name", "@f(a: int) { nop; }", "@f(b: int) { nop; }", &["row", "tokens"]),
        ("the formals' order", "@f(a: int, b: int) { nop; }", "@f(b: int, a: int) { nop; }", &["row", "tokens"]),
        ("the result type", "@f: int { .a: jmp .a; }", "@f: bool { .a: jmp .a; }", &["row", "tokens"]),
        ("a type", "@f { x: int = const 1; }", "@f { x: bool = const true; }", &["tokens", "items"]),
        ("a name", "@f { print x; }", "@f { print y; }", &["tokens", "items"]),
        ("a label", "@f { .a: nop; }", "@f { .b: nop; }", &["tokens", "items"]),
        (
            "the operands' order",
            "@f(a: int, b: int) { x: int = sub a b; }",
            "@f(a: int, b: int) { x: int = sub b a; }",
            &["tokens", "items"],
        ),
        (
            "an argument's type",
            "@f(a: int) { call @f a; }",
            "@f(a: bool) { call @f a; }",
            &["row", "tokens", "arguments"],
        ),
        (
            "a callee",
            "@f { call @g; } @g { nop; } @h { nop; }",
            "@f { call @h; } @g { nop; } @h { nop; }",
            &["tokens", "items"],
        ),
        (
            "the number of a callee's type",
            "@f { x: int = call @g; } @g: int { .a: jmp .a; }",
            "@f { x: int = call @g; } @h: bool { .a: jmp .a; } @g: int { .a: jmp .a; }",
            &["items"],
        ),
        (
            "an argument",
            "@f(a: int, b: int) { call @f a b; }",
            "@f(a: int, b: int) { call @f a a; }",
            &["tokens", "arguments"],
        ),
        (
            "the arguments' order",
            "@f(a: int, b: int) { call @f a b; }",
            "@f(a: int, b: int) { call @f b a; }",
            &["tokens", "arguments"],
        ),
        ("an operation more", "@f { ret; }", "@f { nop; ret; }", &["row", "tokens", "items", "blocks"]),
        ("an added ret", "@f { nop; }", "@f { nop; ret; }", &["row", "tokens", "items"]),
        (
            "the edges' order",
            "@f { .a: br q .a .b; .b: ret; }",
            "@f { .a: br q .b .a; .b: ret; }",
            &["tokens", "items", "blocks"],
        ),
        (
            "an edge",
            "@f { .a: br q .a .b; .b: jmp .a; }",
            "@f { .a: br q .a .b; .b: jmp .b; }",
            &["tokens", "items", "blocks", "predecessors"],
        ),
        (
            "a block's boundary",
            "@f { nop; nop; .a: nop; }",
            "@f { nop; .a: nop; nop; }",
            &["tokens", "items", "blocks"],
        ),
        (
            "an edge that leaves a block dead",
            "@f { .a: jmp .b; .b: ret; }",
            "@f { .a: jmp .a; .b: ret; }",
            &["tokens", "items", "blocks"],
        ),
    ];
    for (what, one, other, expected) in pairs {
        assert_eq!(differing((one, 0), (other, 0)), expected, "{what}");
    }
}

/// A function that has records of each kind, another one of its type, which has its names in another order, and a callee.
const FUNCTION: &str = "@f(n: int, c: bool) {
.a:
  x: int = add n n;
  y: bool = not c;
  k: int = const -7;
  call @f x y;
  r: int = call @r k;
  br y .a .b;
.b: print r; nop; jmp .b;
.c: ret;
}";
const SAME_TYPE: &str = "@g(m: int, d: bool) { .b: k: int = id m; call @f m d; br r .c .b; .c: print y; jmp .b; }";
const CALLEE: &str = "@r(y: int): int { .c: y: int = call @r y; br c .c .b; .b: ret y; }";

const NOTHING: [&str; 0] = [];

/// What stands before a function or behind it, which numbers its names have and where its runs begin moves nothing but its
/// lines.
#[test]
fn what_stands_around_is_not_read() {
    let text = format!("{FUNCTION}\n{CALLEE}");
    let on_its_line = [
        ("the same", text.clone(), 0),
        ("blanks before", format!("   \t{text}"), 0),
        ("comments before", format!("/* @f {{ }} */ #\n{text}"), 0),
        ("a function before", format!("{SAME_TYPE} {text}"), 1),
        ("functions before", format!("{SAME_TYPE}{SAME_TYPE}{SAME_TYPE}{text}"), 3),
        ("a comment behind", format!("{text} # {SAME_TYPE}"), 0),
        ("a function behind", format!("{text} {SAME_TYPE}"), 0),
        ("a function in between", format!("{FUNCTION} {SAME_TYPE} {CALLEE}"), 0),
    ];
    for (what, other, number) in &on_its_line {
        assert_eq!(differing((&text, 0), (other, *number)), NOTHING, "{what}");
        assert_eq!(moved_differing((&text, 0), (other, *number)), NOTHING, "{what}");
    }
    let further_down = [
        ("lines before", format!("\n\n\n{text}"), 0),
        ("a function a line before", format!("{SAME_TYPE}\n{text}"), 1),
        ("functions all around", format!("{SAME_TYPE}\n{SAME_TYPE}\n\n{FUNCTION}\n{SAME_TYPE}\n{CALLEE}"), 2),
    ];
    for (what, other, number) in &further_down {
        assert_eq!(differing((&text, 0), (other, *number)), ["row", "tokens"], "{what}");
        assert_eq!(moved_differing((&text, 0), (other, *number)), NOTHING, "{what}");
    }
    // A function type's number is counted in the whole text: one of a new type before it moves it.
    assert_eq!(moved_differing((&text, 0), (&format!("{CALLEE}{FUNCTION}"), 1)), ["row", "items"]);
}

/// What is no token has no part in a reading but for the place it takes.
#[test]
fn blanks_are_not_read() {
    let blanks = [("@f { nop;     }", "@f { nop;/* */}"), ("@f { nop         ; }", "@f { nop //\t\r#/*\n; }")];
    for (blank, other) in blanks {
        assert_eq!(differing((blank, 0), (other, 0)), NOTHING, "{other}");
    }
}

/// The slices that hold records of functions.
fn slices(cells: &mut Cells) -> [&mut Vec<u32>; 6] {
    let Cells { tokens, functions, items, arguments, blocks, predecessors, .. } = cells;
    [tokens, functions, items, arguments, blocks, predecessors]
}

/// Where the functions of a text end in each slice: of tokens, before the end token.
fn ends(text: &str) -> [usize; 6] {
    let mut ends = slices(&mut accepted(text).cells).map(|cells| cells.len());
    ends[0] -= 4;
    ends
}

/// Each cell of a function's records has a part in its reading, and no cell of another's has.
#[test]
fn every_cell_of_its_own_is_read() {
    let texts = ["", CALLEE, &format!("{CALLEE}{FUNCTION}"), &format!("{CALLEE}{FUNCTION}{SAME_TYPE}")];
    let written = accepted(texts[3]);
    let kinds: BTreeSet<u32> = written.cells.items.iter().copied().step_by(8).collect();
    assert!(kinds.into_iter().eq(1..=12), "all kinds of items");
    let ends = texts.map(ends);
    for (slice, &end) in ends[3].iter().enumerate() {
        for cell in 0..end {
            let mut changed = written.cells.clone();
            slices(&mut changed)[slice][cell] += 1;
            for number in 0..3 {
                let is_own = (ends[number][slice]..ends[number + 1][slice]).contains(&cell);
                let is_read = is_read(&written, &changed, number);
                assert_eq!(is_read, [is_own; 2], "cell {cell} of slice {slice}, function {number}");
            }
        }
    }
}

/// Whether a function reads otherwise with changed cells; and whether it does with lines counted from its own.
fn is_read(written: &Written<'_>, changed: &Cells, number: usize) -> [bool; 2] {
    let text = written.text;
    let moved = moved_reading(text, changed, number) != written.moved_reading(number);
    [reading_of(text, changed, number) != written.reading(number), moved]
}

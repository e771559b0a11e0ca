//! The edges of each rule, in document 01's order: under each rule the least texts that keep it and that break it.

/// The rules of lexing, each with its texts, several edges in a text.
pub const LEXING: [(&str, &[&str]); 8] = [
    ("blanks and lines", &[" \t\r", "x\n\r\n x"]),
    (
        "every word and every token of one byte",
        &[
            "add mul sub div mod true false eq lt gt le ge not and or jmp br call ret",
            "=(){}:;,int bool const print nop id",
            "a:int=-5,7b",
        ],
    ),
    ("comments eat their newlines", &["// /*\n\nx", "/*\n\n*/\nx", "\n /*\n*"]),
    ("numbers side by side", &["00000000007 02147483647-2147483648", "-0-1"]),
    ("a number out of range", &["00000000007\n 99999999999999999999", "2147483648$"]),
    ("what begins a name, and where it ends", &["._", "x[", "x\n $", "x@y.z", "int ints Int @int .int"]),
    ("one table for all kinds of names", &["x @x .x x", "aZ_9 aZ_ zA0 aZ_9"]),
    (
        "64 bytes with the sigil, and one more",
        &[
            "@a23456789_123456789_123456789_123456789_123456789_123456789_123",
            "@a23456789_123456789_123456789_123456789_123456789_123456789_1234 $",
            "\n a123456789_123456789_123456789_123456789_123456789_123456789_1234",
        ],
    ),
];

/// The rules of parsing and typing, each with its texts.
pub const RULES: [(&str, &[&str]); 16] = [
    ("edges, predecessors, a dead block", &["@f { jmp .b; .a: nop; .b: br x .a .b; }", "@f { ret; .a: nop; }"]),
    (
        "blocks are taken in order, and a terminator's labels first then second",
        &[
            "@f { br x .a .b; }", "@f { .a: br x .a .b; }", "@f { jmp .z; .a: .b: nop; }",
            "@f { nop; .a: .b: jmp .z; }", "\n@f { }",
        ],
    ),
    (
        "an operation behind a terminator, once it is parsed",
        &["@f { jmp .a; x: int = add y z; .a: nop; }", "@f { ret; call @g x; }"],
    ),
    ("only a void function gets a ret", &["@f: int { nop; .a: ret x; }", "@f: int { x: int = const -1; }"]),
    (
        "what is missing is reported with the token that stands there",
        &[
            "@f { nop; .a: }", "@f { nop }", "@f\nnop", "@f { .a nop; }", "@f { x int = id y; }",
            "@f { x: int id y; }", "@f(x: int { nop; }", "@f { x: y = id z; }", "@f { x: int = x; }",
            "@f { x: int = ; }", "@f { jmp x; }", "@f { call f; }", "@f { nop;", "@f { nop;\n\n", "@f { call", "@f(a",
            "@f { call @f a", "@f { .a:",
        ],
    ),
    (
        "how a message shows a token",
        &[
            "@f { print 5; }", "@f { print -5; }", "@f { print 2147483647; }", "@f { print -2147483648; }",
            "@f { print -0; }", "f", "@f { call .g; }", "@f { jmp @f; }", "@f: void { nop; }",
            "@f { x: bool = const -1; }",
        ],
    ),
    (
        "names as the text spells them",
        &[
            "@f { .a: nop; .ab: nop;\n.ab: nop; }", "@f { .a: br x .a .bc; }",
            "@f { xy: int = const 1;\nxy: bool = const true; }", "@f { x: int = id yz; }", "@f { call @g_1; }",
        ],
    ),
    (
        "headers: function types are numbered in text order, and equal types share a number",
        &[
            "@f(a: int): int { ret a; } @g(b: bool) { nop; } @h(c: int): int { ret c; }",
            "@f(a: int, b: bool) { nop; } @f(c: int, d: int) { nop; }",
            "@f { call @g; } @g { ret; } @g { ret; }",
            "@f() { nop; }",
            "@f { nop; } nop",
            "@f nop",
            "@f(a: int, ) { nop; }",
            "@f(a int) { nop; }",
            "@f(a: int { nop; }",
        ],
    ),
    (
        "sixteen formals and sixteen arguments, and one more",
        &[
            "@f(a:int,a:int,a:int,a:int,a:int,a:int,a:int,a:int,a:int,a:int,a:int,a:int,a:int,a:int,a:int,a:int){nop;}",
            "@f(a:int,a:int,a:int,a:int,a:int,a:int,a:int,a:int,a:int,a:int,a:int,a:int,a:int,a:int,a:int,a:int,a",
            "@f { call @g a a a a a a a a a a a a a a a a; }",
            "@f { call @g a a a a a a a a a a a a a a a a a; }",
        ],
    ),
    (
        "const is compared before it is entered",
        &["@f { x: int = const 1; ret; }", "@f { x: int = const 1; x: bool = const 2; }"],
    ),
    (
        "binary: operands looked up, result entered, then compared: the result's type first; eq: right against left",
        &[
            "@f { a: bool = const true; c: int = lt a a; }",
            "@f { a: int = const 1; b: bool = const true; c: int = eq a b; }",
            "@f(a: int) { c: int = mod a a; }",
            "@f(a: bool, b: int) { c: int = add a b; }",
            "@f(a: bool, b: int) { c: int = add b a; }",
            "@f { c: int = add a b; }",
            "@f(c: bool, a: bool) { c: int = add a a; }",
            "@f(a: int) { c: bool = lt a a; }",
            "@f(a: int) { c: bool = ge a a; }",
            "@f(a: bool) { c: bool = ge a a; }",
            "@f(a: bool) { c: bool = and a a; }",
            "@f(a: int) { c: bool = or a a; }",
            "@f(a: bool) { c: bool = eq a a; }",
            "@f(a: int) { c: int = eq a a; }",
        ],
    ),
    (
        "unary: operand looked up, result entered, then compared",
        &[
            "@f(a: bool) { c: int = id a; }", "@f(c: bool, a: bool) { c: int = id a; }",
            "@f(a: int) { c: bool = not a; }", "@f(a: bool) { c: int = not a; }",
            "@f { x: int = const 1;\n\nx: int = not x; }",
        ],
    ),
    (
        "call: callee, result, count, then arguments looked up, then compared",
        &[
            "@f { x: int = call @g; }",
            "@f { x: int = call @f; }",
            "@f: int { call @f; }",
            "@f { call @g; } @g(a: int) { ret; }",
            "@f(a: int) { call @f; }",
            "@f { call @f; }",
            "@f { call @f a a a a a a a a a a a a; }",
            "@f(a: bool) { call @g a; } @g(a: int) { ret; }",
            "@f { x: bool = call @g; } @g: int { ret x; }",
            "@f(x: int) { x: bool = call @g; } @g: int { ret x; }",
            "@f(x: bool) { x: int = call @g; } @g: int { ret x; }",
            "@f(a: int) { call @g a b; } @g(a: int, b: int) { ret; }",
            "@f(a: bool) { call @g a b; } @g(a: int, b: int) { ret; }",
            "@f(a: int, b: bool) { call @g a b; } @g(a: int, b: int) { ret; }",
        ],
    ),
    (
        "ret; print and br are never looked up",
        &[
            "@f(x: int) { ret x; }", "@f: int { ret; }", "@f(a: bool): int { ret a; }",
            "@f { print q; br q .a .a; .a: nop; }",
        ],
    ),
    (
        "formals are entered first, and one table serves a function",
        &[
            "@f(x: int, x: bool) { ret; }",
            "@f(x: int) { x: int = const 1; y: int = id x; }",
            "@f { x: int = const 1; jmp .a; .a: y: int = id x; }",
            "@f { br c .a .b; .a: x: int = const 1; ret; .b: x: bool = const true; ret; }",
            "@f(x: int) { ret; } @g { y: int = id x; }",
        ],
    ),
    (
        "the order of the blocks: last successor first, and what no path reaches comes last",
        &[
            "@f { br q .a .b; .a: x: int = id y; .b: z: int = id w; }",
            "@f { br q .b .a; .a: x: int = id y; .b: z: int = id w; }",
            "@f { jmp .b; .a: x: int = id y; .b: z: int = id w; }",
            "@f { ret; .a: x: int = id y; }",
            "@f { jmp .h; .h: br c .u .i; .i: x: int = const 1; jmp .h; .u: y: int = id x; ret; }",
            "@f { jmp .h; .h: br c .i .u; .i: x: int = const 1; jmp .h; .u: y: int = id x; ret; }",
        ],
    ),
];

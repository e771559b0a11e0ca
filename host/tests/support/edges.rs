//! Texts that are always compared: all short ones over small alphabets, the edges of each rule, and each limit at and one
//! above.
use super::fixed::titled;
use super::fixed_reads;
use super::model::{ARGUMENTS, BYTES, FORMALS, FUNCTIONS, LABELS, NAMES, TOKENS};
use super::texts::short_names;

/// Every text over an alphabet of at most so many bytes.
pub fn every_short(alphabet: &'static [u8], longest: u32) -> impl Iterator<Item = Vec<u8>> {
    (0..=longest).flat_map(move |length| {
        let count = alphabet.len().pow(length);
        (0..count).map(move |number| spelled(alphabet, length, number))
    })
}

/// The digits of a number, the letters of an alphabet being the digits.
fn spelled<T: Copy>(alphabet: &[T], length: u32, number: usize) -> Vec<T> {
    (0..length).map(|digit| alphabet[number / alphabet.len().pow(digit) % alphabet.len()]).collect()
}

/// Every sequence of at most so many parts, with a blank between them, after one text and before another.
pub fn every_sequence(
    before: &'static str,
    parts: &'static [&'static str],
    longest: u32,
    after: &'static str,
) -> impl Iterator<Item = Vec<u8>> {
    (0..=longest).flat_map(move |length| {
        let count = parts.len().pow(length);
        (0..count).map(move |number| [before, &spelled(parts, length, number).join(" "), after].join(" ").into_bytes())
    })
}

/// Headers: what may stand behind a function's name.
pub fn headers() -> impl Iterator<Item = Vec<u8>> {
    let parts = &["@f", "(", ")", ":", "int", "x", ",", "x: bool", "{ ret; }", "{ ret x; }"];
    every_sequence("@f", parts, 4, "")
}

/// Labels, blocks and edges.
pub fn blocks() -> impl Iterator<Item = Vec<u8>> {
    let parts = &[".a:", ".b:", ".a", "nop;", "ret;", "jmp .a;", "br q .b .a;", "}"];
    every_sequence("@f {", parts, 5, "}")
}

/// Orders of blocks: each reads a name, sets it, or both, and goes somewhere. What is accepted depends on the order.
pub fn orders() -> impl Iterator<Item = Vec<u8>> {
    let ways = &["jmp .a;", "jmp .b;", "jmp .c;", "br q .a .b;", "br q .b .c;", "br q .c .a;", "br q .c .b;", "ret;"];
    let blocks = &["x: int = const 1;", "y: int = id x;", "x: bool = const true;", "y: int = add x y; x: int = id y;"];
    (0..ways.len().pow(4) * blocks.len().pow(3)).step_by(13).map(move |number| {
        let [first, ways_of @ ..] = &spelled(ways, 4, number)[..] else { panic!("four ways") };
        let blocks_of = spelled(blocks, 3, number / ways.len().pow(4));
        let mut text = format!("@f {{ nop; {first}");
        for (label, (block, way)) in [".a", ".b", ".c"].iter().zip(blocks_of.iter().zip(ways_of)) {
            text.extend([" ", label, ": ", block, " ", way]);
        }
        text.push_str(" }");
        text.into_bytes()
    })
}

/// Statements that set, read and call, in each order.
pub fn statements() -> impl Iterator<Item = Vec<u8>> {
    let parts = &[
        "x: int = const 1;", "x: bool = const false;", "y: int = add x y;", "y: bool = eq x y;", "z: bool = not x;",
        "y: int = id x;", "x: int = call @g x;", "y: bool = call @g x y;", "call @g x;", "call @h x;", "ret x;",
        "ret;",
    ];
    let around = [
        ("@g(a: int): int { ret a; } @h(a: bool) { ret; } @f {", "}"),
        ("@f(y: int): int {", "} @g(a: bool, b: int): bool { ret a; } @h(a: int) { ret; }"),
        ("@f(x: bool, y: bool): bool {", "} @g(a: int): int { ret a; } @h { nop; }"),
    ];
    around.into_iter().flat_map(|(before, after)| every_sequence(before, parts, 3, after))
}

/// Document 01's texts, each kind, and the edges of words, numbers, comments and bytes.
pub fn edges() -> Vec<Vec<u8>> {
    let beside = titled("", BESIDE_THE_FIXED);
    let mut texts: Vec<Vec<u8>> = fixed_reads::edges().into_iter().chain(beside).map(|(_, text)| text).collect();
    texts.extend((0..=255).map(|byte| vec![byte]));
    texts.extend((0..=255).map(|byte| vec![b'\n', byte, b'x']));
    texts.extend((0..=255).map(|byte| [b"# ", &[byte][..], b"\n/*", &[byte], b"*/ x"].concat()));
    texts
}

/// Words, tokens of one byte and numbers that are in no fixed text to read.
const BESIDE_THE_FIXED: [&str; 8] = [
    "add mul sub div mod true false eq lt gt le ge not and or jmp br call ret int bool const print nop id",
    "addmulsubdivmodtruefalse",
    "= ( ) { } : ; ,",
    "99999999999999999999999999999999999999999",
    "00000000000000000000000000000000000000005",
    "-18446744073709551617",
    "\n@",
    "\n.",
];

/// Document 01, "Texts and what comes of them".
pub const DOCUMENT_01: [&str; 18] = [
    "", "@f { nop; }", "@f { }", "@f { .a: .b: nop; }", "@f { nop; .a: .b: nop; }", "@f { ret; nop; }",
    "@f { .a: br q .a .a; }", "@f { x: int = call @g x; } @g(a: int): int { ret a; }", "@f { x: int = const true; }",
    "@f: int { nop; }", "@f { x: int = const 2147483648; }", "@f { nop 2147483648; }", "-2147483649", "-2147483648",
    "/***/", "#x\n@", "@f { nop; } @f { nop; }", "@f { nop; } @f: int { nop; }",
];

/// Each limit, at it and one above, with what may stand there.
pub fn limits() -> Vec<Vec<u8>> {
    [byte_limit(), token_limit(), name_limit(), both_limits()].concat()
}

/// The same of the limits that checking has beside those of reading.
pub fn limits_of_check() -> Vec<Vec<u8>> {
    [function_limit(), formal_limit(), argument_limit(), label_limit(), room()].concat()
}

fn function_limit() -> Vec<Vec<u8>> {
    let mut texts = Vec::new();
    for count in [FUNCTIONS - 1, FUNCTIONS, FUNCTIONS + 1] {
        let functions: String = (0..count).map(|number| format!("@f{number} {{ ret; }}\n")).collect();
        for rest in ["", "@g", "@g(", "@f0: int", "x", "@g { x }", ";"] {
            texts.push(format!("{functions}{rest}").into_bytes());
        }
        // An earlier function that types badly is answered after all functions are read.
        texts.push(format!("@bad {{ print x; ret x; }}{functions}").into_bytes());
        texts.push("@f { nop; }".repeat(count).into_bytes());
    }
    texts
}

fn listed(count: usize, each: impl Fn(usize) -> String, between: &str) -> String {
    (0..count).map(each).collect::<Vec<_>>().join(between)
}

fn formal_limit() -> Vec<Vec<u8>> {
    let mut texts = Vec::new();
    for count in [FORMALS - 1, FORMALS, FORMALS + 1, FORMALS + 2] {
        let formals = listed(count, |number| format!("p{number}: int"), ", ");
        let same = listed(count, |_| "p: bool".to_owned(), ",");
        let names = listed(count, |number| format!("p{number}"), " ");
        texts.push(format!("@f({formals}) {{ call @f {names}; }}").into_bytes());
        texts.push(format!("@f({same}): bool {{ ret p; }}").into_bytes());
        for rest in ["", ",", ", x", ", x:", ", 5", ")", "): bool", ") { ret p0; }"] {
            texts.push(format!("@f {{ ret; }} @f({formals}{rest}").into_bytes());
        }
        texts.push(format!("@f({formals}, p0: bool) {{ ret; }}").into_bytes());
    }
    texts
}

fn argument_limit() -> Vec<Vec<u8>> {
    let mut texts = Vec::new();
    for count in [ARGUMENTS - 1, ARGUMENTS, ARGUMENTS + 1, ARGUMENTS + 2] {
        let names = "x ".repeat(count);
        for rest in [";", "", "@g", "; }", "y; }"] {
            texts.push(format!("@f {{ x: int = const 1; call @f {names}{rest}").into_bytes());
            texts.push(format!("@f {{ ret; z: int = call @f\n{names}{rest}").into_bytes());
        }
    }
    texts
}

fn label_limit() -> Vec<Vec<u8>> {
    let mut texts = Vec::new();
    for count in [LABELS - 1, LABELS, LABELS + 1] {
        let in_front = listed(count, |number| format!(".l{number}:"), " ");
        let chain = listed(count, |number| format!(".l{number}: jmp .l{};", (number + 1) % count), " ");
        let dead = listed(count, |number| format!(".l{number}: nop;"), " ");
        let back =
            listed(count, |number| format!(".l{number}: br q .l{} .l{};", (number + 1) % count, number / 2), " ");
        for body in [&in_front, &chain, &dead, &back] {
            for rest in [" ret; }", " .l0: ret; }", " .new ret; }", " .new: ret; }", " .new: .l0: ret; }", " .l0 }"] {
                texts.push(format!("@f {{ {body}{rest}").into_bytes());
                texts.push(format!("@f {{ nop; jmp .l0; {body}{rest}").into_bytes());
            }
        }
    }
    texts
}

/// Texts that need as much room as any: of items, arguments, blocks and edges.
fn room() -> Vec<Vec<u8>> {
    // What is left of the tokens after a header, a brace and the end.
    let tokens = TOKENS - 4;
    let call = format!("call @f {};", "x ".repeat(ARGUMENTS));
    let labels = |count: usize, each: &dyn Fn(usize) -> String| listed(count, each, "");
    let many = |function: &dyn Fn(usize) -> String, count: usize| listed(count, function, "").into_bytes();
    vec![
        format!("@f {{{}}}", "nop;".repeat(tokens / 2)).into_bytes(),
        format!("@f {{{}}}", call.repeat(tokens / 19)).into_bytes(),
        format!("@f(x: int) {{{}}}", "call @f x;".repeat(tokens / 4 - 2)).into_bytes(),
        many(&|f| format!("@f{f}{{{}}}", labels(14, &|l| format!("nop;.l{l}:")) + "nop;"), 64),
        many(&|f| format!("@f{f}{{{}nop;}}", labels(15, &|l| format!("nop;.l{l}:"))), 64),
        many(&|f| format!("@f{f}{{.l0:br q .l0 .l0;{}}}", labels(8, &|l| format!(".m{l}:br q .l0 .m{l};"))), 64),
        many(&|f| format!("@f{f}{{{}}}", labels(254, &|l| format!(".l{l}:ret;"))), 4),
        many(&|f| format!("@f{f}{{{}}}", labels(170, &|l| format!(".l{l}:br q .l0 .l0;"))), 3),
    ]
}

fn byte_limit() -> Vec<Vec<u8>> {
    [BYTES - 1, BYTES, BYTES + 1].into_iter().flat_map(at_length).collect()
}

/// The fixed texts of a length, and more.
fn at_length(length: usize) -> Vec<Vec<u8>> {
    let filled = |front: &[u8], fill: u8, back: &[u8]| {
        let middle = vec![fill; length - front.len() - back.len()];
        [front, &middle, back].concat()
    };
    let beside = [
        filled(b"/*", b'\n', b"*/"),
        filled(b"", b'0', b"5"),
        filled(b"-", b'0', b"7"),
        filled(b"@f { nop; }", b'\n', b"#"),
    ];
    fixed_reads::at_length(length).into_iter().map(|(_, text)| text).chain(beside).collect()
}

/// What may follow the last token that has room, or the one before it.
fn after_the_last() -> Vec<String> {
    let beside = [" 2147483648", "//x", "\n@new", " .new", "\0"].map(str::to_owned);
    fixed_reads::after_all_tokens().into_iter().map(|(_, rest)| rest).chain(beside).collect()
}

fn token_limit() -> Vec<Vec<u8>> {
    let mut texts = Vec::new();
    for count in [TOKENS - 2, TOKENS - 1, TOKENS] {
        for rest in after_the_last() {
            texts.push([b";".repeat(count).as_slice(), rest.as_bytes()].concat());
        }
        texts.push(b"x ".repeat(count));
        texts.push(b"1\n".repeat(count));
        texts.push([b"1 //\n".repeat(300), b"1 ".repeat(count - 300)].concat());
    }
    texts
}

fn name_limit() -> Vec<Vec<u8>> {
    let mut texts = Vec::new();
    for count in [NAMES - 1, NAMES, NAMES + 1] {
        let beside = ["", "new", "\n\nnew new2"].map(str::to_owned);
        for rest in fixed_reads::after_all_names().into_iter().map(|(_, rest)| rest).chain(beside) {
            texts.push([short_names(count).as_slice(), rest.as_bytes()].concat());
        }
        texts.push([short_names(count), short_names(count)].concat());
    }
    texts
}

/// The names are all there are, and so are the tokens: which refusal comes first?
fn both_limits() -> Vec<Vec<u8>> {
    let mut texts = Vec::new();
    for tokens in [TOKENS - 1, TOKENS] {
        let full = [short_names(NAMES), b";".repeat(tokens - NAMES)].concat();
        for rest in after_the_last() {
            texts.push([full.as_slice(), rest.as_bytes()].concat());
        }
        texts.push([full.as_slice(), b" Aa"].concat());
    }
    texts
}

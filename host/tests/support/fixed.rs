//! Texts to check that are the same each time, with a word on each: every rule of parsing and typing, every number, and the
//! limits. The fixed cases of crates/replay_check are made of them.
use std::collections::HashSet;

use super::dice::Dice;
use super::model::{BYTES, NAMES, TOKENS};
use super::{edges, grammar, programs, rules, texts};

pub type Titled = (String, Vec<u8>);

/// All of them, each once.
pub fn all() -> Vec<Titled> {
    let lists = [
        documents(),
        rules(),
        reading(),
        changed(),
        typed(),
        calls(),
        orders(),
        graphs(),
        written(),
        limits(),
        generated(),
    ];
    distinct(lists.concat())
}

/// Each text once, with the first of its titles.
pub fn distinct(texts: Vec<Titled>) -> Vec<Titled> {
    let mut seen = HashSet::new();
    texts.into_iter().filter(|(_, text)| seen.insert(text.clone())).collect()
}

pub fn titled<T: AsRef<[u8]>>(title: &str, texts: impl IntoIterator<Item = T>) -> Vec<Titled> {
    texts.into_iter().map(|text| (title.to_owned(), text.as_ref().to_vec())).collect()
}

fn documents() -> Vec<Titled> {
    titled("document 01", edges::DOCUMENT_01)
}

/// The edges of each rule.
fn rules() -> Vec<Titled> {
    rules::RULES.iter().flat_map(|(rule, texts)| titled(rule, *texts)).collect()
}

/// Refusals of reading, which are refusals of checking.
fn reading() -> Vec<Titled> {
    let texts: [&[u8]; 20] = [
        b"\x80", b"@f { nop; }\xc3", b"@f { ret; nop; } # \xe9", b"/*", b"@f { nop; /* }", b"@f { } /***/", b"$",
        b"@f { x: int = const $5; }", b"@f { nop; }\n@", b"\0", b"@f { } _", b"-", b"@f { x: int = const -; }",
        b"@f { } -2147483649", b"\n\n/", b"@f { . }", b"2147483648", b"@f {\n ret x; nop; 9999999999 }",
        b"@f { } 2147483648 $", b"2147483648 \x80",
    ];
    titled("refused by reading", texts)
}

/// Small programs with each of their tokens left out, and with another in its place.
fn changed() -> Vec<Titled> {
    let programs = [
        "@f { print x ; }", "@f { ret ; }", "@f { .a : jmp .a ; }", "@f { .a : br q .a .b ; .b : nop ; }",
        "@f ( a : int ) : bool { call @f a ; }", "@f ( a : int , b : bool ) : int { ret a ; }",
        "@f { x : int = const 5 ; }", "@f ( b : bool ) { x : bool = not b ; }",
        "@f ( a : int ) { x : int = add a a ; }", "@f ( a : int ) : int { x : int = call @f a ; ret x ; }",
    ];
    let others = ["5", ".q", "@q", "int", ";", "x", "}", ":", "ret", "{", "true"];
    let mut texts = Vec::new();
    for program in programs {
        let tokens: Vec<&str> = program.split(' ').collect();
        texts.push(("a small program".to_owned(), program.as_bytes().to_vec()));
        for at in 0..tokens.len() {
            let without = [&tokens[..at], &tokens[at + 1..]].concat();
            texts.push((format!("without its token {at}"), without.join(" ").into_bytes()));
            let mut with = tokens.clone();
            with[at] = others[texts.len() % others.len()];
            texts.push((format!("with another token {at}"), with.join(" ").into_bytes()));
        }
        texts.extend(titled(
            "a program that is cut off",
            (1..tokens.len()).step_by(4).map(|end| tokens[..end].join(" ")),
        ));
    }
    texts
}

/// Each operator with operands and results of each type.
fn typed() -> Vec<Titled> {
    let mut texts = Vec::new();
    let mut push = |title: &str, text: String| texts.push((title.to_owned(), text.into_bytes()));
    for operator in ["add", "lt", "and", "eq"] {
        for (number, ty) in ["int", "bool"].iter().enumerate() {
            for (left, right) in [("a", "a"), ("a", "b"), ("b", "a"), ("b", "b")] {
                let newlines = "\n".repeat(number);
                push(operator, format!("@f(a: int, b: bool) {{{newlines} x: {ty} = {operator} {left} {right}; }}"));
            }
        }
    }
    for (operator, ty) in [("mul", "int"), ("sub", "int"), ("div", "int"), ("mod", "int")] {
        push(operator, format!("@f(a: int, b: int) {{ x: {ty} = {operator} a b; y: {ty} = {operator} b x; }}"));
        push(operator, format!("@f(a: int, b: bool) {{ x: {ty} = {operator} a b; }}"));
    }
    for operator in ["gt", "le", "ge", "or"] {
        push(operator, format!("@f(a: int, b: int) {{ x: bool = {operator} a b; }}"));
        push(operator, format!("@f(a: bool, b: bool) {{ x: bool = {operator} a b; }}"));
    }
    for operator in ["id", "not"] {
        for (ty, operand) in [("int", "a"), ("int", "b"), ("bool", "a"), ("bool", "b")] {
            push(operator, format!("@f(a: int, b: bool) {{ x: {ty} = {operator} {operand}; }}"));
        }
    }
    for (ty, value) in [("int", "-7"), ("int", "true"), ("bool", "false"), ("bool", "0"), ("int", "2147483647")] {
        push("const", format!("@f {{ x: {ty} = const {value}; }}"));
    }
    for result in ["", ": int", ": bool"] {
        for value in ["", " a", " b", " c"] {
            push("ret", format!("@f(a: int, b: bool){result} {{ ret{value}; }}"));
        }
        push("no terminator", format!("@f(a: int){result} {{ x: int = add a a; }}"));
        push("no terminator in a later block", format!("@f(a: int){result} {{ jmp .e;\n.e: print a; }}"));
    }
    texts.extend(titled("what an operand is read before", SET_AND_READ));
    texts
}

/// Names that are set twice, read before they are set, or set by what reads them.
const SET_AND_READ: [&str; 16] = [
    "@f { x: int = add x x; }",
    "@f { x: int = id x; }",
    "@f(x: int) { x: int = id x; }",
    "@f(x: int) { x: bool = id x; }",
    "@f(x: int) { x: bool = lt x x; }",
    "@f(x: int, x: int) { nop; }",
    "@f(x: int, x: bool) { nop; }",
    "@g { nop; }\n@f(x: int, y: bool,\n x: bool) { nop; }",
    "@f { x: int = const 1; x: bool = const true; }",
    "@f { x: int = const 1; x: int = const 2; y: int = add x x; }",
    "@f(a: int) { x: int = add a y; }",
    "@f(a: int) { x: int = add y a; }",
    "@f { print x; x: int = const 1; }",
    "@f { br x .a .a; .a: x: int = const 1; }",
    "@f(f: int) { x: int = id @f; }",
    "@f { x: int = const 1; } @g { y: int = id x; }",
];

/// Calls: callees, results, counts and types of arguments, and what comes before what.
fn calls() -> Vec<Titled> {
    let heads =
        "@v { nop; } @i(a: int): int { ret a; } @p(a: int, b: bool) { nop; } @b: bool { t: bool = const true; ret t; }";
    let calls = [
        "call @v;", "x: int = call @v;", "call @i n;", "x: int = call @i n;", "x: bool = call @i n;",
        "x: int = call @i x;", "x: int = call @i y;", "x: int = call @i;", "x: int = call @i n n;", "call @p n c;",
        "call @p c n;", "call @p n n;", "call @p y c;", "call @p n;", "call @p n y z;", "c: bool = call @b;",
        "n: bool = call @b;", "x: int = call @b;", "call @b;", "call @nobody;", "x: int = call @nobody y;",
        "n: bool = call @v;", "n: int = call @i c;", "x: bool = call @b; y: bool = not x; call @p n y;",
        "call @f n c;", "x: int = call @f n c;",
    ];
    let mut texts: Vec<Titled> = calls
        .iter()
        .map(|call| ("a call".to_owned(), format!("{heads}\n@f(n: int, c: bool) {{ {call} }}").into_bytes()))
        .collect();
    texts.extend(titled(
        "functions of one name, and types by number",
        [
            "@f { nop; } @g { nop; } @h(a: int) { call @h a; call @f; }",
            "@f(a: int): int { ret a; } @f(b: int): int { x: int = call @f b; ret x; }",
            "@f(a: int) { nop; } @f(a: bool) { nop; }",
            "@f: int { nop; } @f { nop; }",
            "@f { ret x; } @f: int { nop; }",
            "@f { call @g; } @g { call @f; } @h: int { nop; }",
            "@a: int { x: int = const 1; ret x; } @b: bool { y: bool = const true; ret y; } @c { x: int = call @a; y: bool = call @b; }",
        ],
    ));
    texts
}

/// What is accepted, and what is refused first, by the order of the blocks.
fn orders() -> Vec<Titled> {
    titled("the order of the blocks", edges::orders().step_by(331))
}

/// Labels, blocks and edges.
fn graphs() -> Vec<Titled> {
    let mut texts = titled(
        "labels, blocks and edges",
        [
            "@f { .a: .b: .c: nop; jmp .b; }",
            "@f { .a: nop; .a: nop; }",
            "@f { .a: .a: nop; }",
            "@f { .a: ret; } @g { .a: ret; }",
            "@f { jmp .a; .a: jmp .b; .b: jmp .a; }",
            "@f { br q .a .b; .a: br q .b .a; .b: br q .a .a; }",
            "@f { br q .b .a; .a: ret; .b: jmp .a; .c: jmp .b; .d: jmp .d; }",
            "@f { .l: nop; jmp .l; .dead: print x; .dead2: jmp .dead; }",
            "@f { jmp .x; }",
            "@f { .a: br q .a .x; }",
            "@f { .a: br q .x .y; }",
            "@f { jmp .x; .a: .b: nop; }",
            "@f { nop; .a: .b: jmp .x; }",
            "@f { jmp .a; .b: .a: nop; }",
            "@f { .a: nop; .b: }",
            "@f { nop; .a }",
            "@f { .a: jmp .a; } @g { jmp .a; }",
            "@f { ret; ret; }",
            "@f { jmp .a; nop; .a: nop; }",
            "@f { br q .a .a; x: int = const 1; .a: nop; }",
            "@f { .a: br q .a .a; call @f; }",
            "@f { ret; .a: ret; .b: ret; }",
            "@f { nop; .a: nop; .b: nop; .c: nop; }",
            "@f { x: int = const 1; br c .t .e; .t: x: int = add x x; jmp .j; .e: x: int = sub x x; jmp .j; .j: print x; }",
        ],
    );
    texts.extend(titled("short bodies", edges::blocks().skip(600).step_by(1201)));
    texts
}

/// Programs as people write them.
fn written() -> Vec<Titled> {
    titled(
        "a program",
        [
            FACTORIAL,
            GCD,
            include_str!("../../../examples/frost.bril"),
            include_str!("../../../examples/frost-refused.bril"),
        ],
    )
}

pub const FACTORIAL: &str = "# The factorial, with a loop.
@fact(n: int): int {
  one: int = const 1;
  r: int = id one;
  jmp .head;
.head:
  done: bool = le n one;
  br done .end .body;
.body:
  r: int = mul r n;
  n: int = sub n one;
  jmp .head;
.end:
  ret r;
}

@main {
  n: int = const 5; // five
  f: int = call @fact n;
  print f;
}
";

pub const GCD: &str = "@gcd(a: int, b: int): int {
.loop: zero: int = const 0; c: bool = eq b zero; br c .out .step;
.step: t: int = mod a b; a: int = id b; b: int = id t; jmp .loop;
.out: ret a; }
";

/// Each limit at it and one above. What is accepted at a limit is long, and repeats itself.
fn limits() -> Vec<Titled> {
    let functions = |count: usize| "@f{nop;}".repeat(count);
    let formals = |count: usize| format!("@f({}){{nop;}}", vec!["p:int"; count].join(","));
    let call = |formals: usize, arguments: usize| {
        format!("@f({}){{call @f{};}}", vec!["p:int"; formals].join(","), " p".repeat(arguments))
    };
    let labels = |count: usize, each: &str, last: &str| {
        let labels: String = (100..100 + count).map(|number| format!(".l{number}:{each}")).collect();
        format!("@f{{{labels}{last}}}")
    };
    let mut texts = titled(
        "limits of the checker",
        [
            functions(64),
            functions(65),
            format!("{}@g", functions(64)),
            format!("{}@f:int{{", functions(64)),
            format!("{};", functions(64)),
            formals(16),
            formals(17),
            format!("@f{{nop;}}{}", formals(17)),
            format!("@f({},x", "p:int,".repeat(15) + "p:int"),
            call(16, 16),
            call(16, 17),
            call(15, 16),
            call(16, 15),
            "@f { ret; call @f x x x x x x x x x x x x x x x x\n x".to_owned(),
            labels(255, "", "ret;"),
            labels(256, "", "ret;"),
            labels(255, "", ".l100:ret;"),
            labels(255, "", ".l100 ret;"),
            labels(255, "ret;", ""),
            labels(256, "ret;", ""),
            labels(255, "jmp .l100;", ""),
            labels(255, "br q .l100 .l100;", ""),
            format!("@g{{nop;}}\n{}", labels(255, "ret;", ".x:ret;")),
        ],
    );
    texts.extend(titled(
        "limits of reading",
        [
            b" ".repeat(BYTES),
            b" ".repeat(BYTES + 1),
            b";".repeat(TOKENS - 1),
            b";".repeat(TOKENS),
            texts::short_names(NAMES),
            texts::short_names(NAMES + 1),
            [&b"@f{print "[..], &b"n".repeat(64), b";}"].concat(),
            [&b"@f{print "[..], &b"n".repeat(65), b";}"].concat(),
            b"@f { } ".repeat(2400),
            b"\n".repeat(BYTES),
        ],
    ));
    texts.extend(titled(
        "as much as there is room for",
        [
            format!("@f{{{}}}", "nop;".repeat(2044)),
            format!("@f{{{}}}", "x:int=const 1;".repeat(584)),
            format!("@f(p:int){{{}}}", "call @f p;".repeat(1020)),
            format!("@f({}){{{}}}", vec!["p:int"; 16].join(","), format!("call @f{};", " p".repeat(16)).repeat(210)),
        ],
    ));
    texts
}

/// Generated programs, as they are and with a slip. Short ones, so that a person can follow them.
fn generated() -> Vec<Titled> {
    let mut texts = Vec::new();
    for number in 0.. {
        let dice = &mut Dice::new(20_261_115, number);
        let mut tokens = programs::program(dice);
        let slips = number % 3;
        (0..slips).for_each(|_| programs::slip(dice, &mut tokens));
        let text = grammar::laid_out_plainly(dice, &tokens);
        if (40..260).contains(&text.len()) {
            texts.push((format!("generated, {slips} slips"), text));
        }
        if texts.len() == 150 {
            break;
        }
    }
    texts
}

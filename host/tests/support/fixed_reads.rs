//! Texts to read that are the same each time, with a word on each: every rule of lexing, every kind, and the limits. The
//! fixed cases of crates/replay_read are made of them.
use super::fixed::{FACTORIAL, GCD, Titled, distinct, titled};
use super::model::{BYTES, NAME, NAMES, TOKENS};
use super::records::KINDS;
use super::texts::short_names;
use super::{edges, rules};

/// All of them, each once.
pub fn all() -> Vec<Titled> {
    let lists = [
        documents(),
        rules(),
        kinds(),
        words(),
        numbers(),
        comments(),
        bytes(),
        byte_limit(),
        token_limit(),
        name_limit(),
        long_names(),
        programs(),
        random(),
    ];
    distinct(lists.concat())
}

/// Those that play around a rule, without the limits on bytes, tokens and names.
pub fn edges() -> Vec<Titled> {
    [documents(), rules(), kinds(), words(), numbers(), comments(), bytes(), long_names()].concat()
}

/// Document 01's, with a new text of its rechecks.
fn documents() -> Vec<Titled> {
    titled("document 01", edges::DOCUMENT_01.iter().chain(&["@f { ret; }"]))
}

/// The edges of each rule; and what is refused on a later line.
fn rules() -> Vec<Titled> {
    let mut texts: Vec<Titled> = rules::LEXING.iter().flat_map(|(rule, texts)| titled(rule, *texts)).collect();
    let later = [
        ("a comment not closed", 120, b"/*".to_vec()),
        ("a minus", 4096, b"-".to_vec()),
        ("a name too long", 99, b"n".repeat(NAME + 1)),
        ("too many names", 10, short_names(NAMES + 1)),
        ("too many tokens", 1203, b";".repeat(TOKENS + 1)),
    ];
    texts.extend(later.map(|(title, line, text)| (format!("{title} on line {line}"), on_line(line, &text))));
    texts
}

fn on_line(line: usize, text: &[u8]) -> Vec<u8> {
    [&b"\n".repeat(line - 1), text].concat()
}

/// The kinds that are words of Bril, in their order in the alphabet.
fn keywords() -> Vec<&'static str> {
    let spelled = &KINDS[4..37];
    let mut words: Vec<&str> = spelled.iter().copied().filter(|kind| kind.as_bytes()[0].is_ascii_lowercase()).collect();
    words.sort_unstable();
    words
}

fn kinds() -> Vec<Titled> {
    let spelling = |kind: &'static str| match kind {
        "local" => "v",
        "global" => "@main",
        "label" => ".loop",
        "integer" => "7",
        "END_OF_FILE" => "",
        itself => itself,
    };
    let (_, but_the_end) = KINDS.split_last().expect("a kind");
    let symbols: Vec<&str> = KINDS.into_iter().filter(|kind| !kind.as_bytes()[0].is_ascii_alphabetic()).collect();
    let mut texts: Vec<Titled> =
        KINDS.iter().map(|kind| (format!("the kind {kind}"), format!("\n {}", spelling(kind)).into_bytes())).collect();
    texts.extend(titled("all kinds, a blank apart", [but_the_end.join(" ")]));
    texts.extend(titled("all kinds, each on its line", [but_the_end.join("\r\n")]));
    texts.extend(titled("symbols with nothing between", [symbols.concat()]));
    texts.extend(titled("words with nothing between", [keywords().concat()]));
    texts
}

/// Words with something more, sigils with something less, one spelling in several kinds.
fn words() -> Vec<Titled> {
    let mut texts = titled(
        "words and names",
        [
            "addx", "Add", "ADD", "int_", "int1", "xadd", "tru", "true_", "truefalse", "br2", "i", "in", "idd",
            "nop nops", "call@f", "ret;", "x:int", "add.add@add", "a_b", "_a", "a_", "a__1_", "A9z_Z", "@1", "@", ".",
            "._a", "@_a", "@a_", ".a.b", "@a@b", ".1", "@ a", ". a", "a.b", "a@b", "a-1", "a1 1a", "@@a", "..a", "@.a",
            ".@a",
        ],
    );
    texts.extend(titled("one spelling as local, global and label", ["f @f .f f @f .f"]));
    texts.extend(titled("first appearance numbers a name", ["b a b c a @b c .b"]));
    texts.extend(titled("names that begin alike", ["a aa aaa a_ a0 aa aaa a"]));
    texts.extend(titled("a name again on a later line", ["x\n\ny\nx y\n"]));
    texts
}

/// Numbers at the ends of 32 and 64 bits, those out of range, and what isn't one.
fn numbers() -> Vec<Titled> {
    let (zeros, nines) = ("0".repeat(100), "9".repeat(40));
    let (long, minus_nines) = (format!("1{zeros}"), format!("-{nines}"));
    let (five, minus_five) = (format!("{zeros}5"), format!("-{zeros}5"));
    let texts = [
        "0", "00", "007", "2147483647", "2147483648", "2147483649", "4294967295", "4294967296", "4294967303",
        "18446744073709551616", "02147483647", "0002147483648", &nines, &long, &zeros, &five, "-0", "-00", "-1",
        "-007", "-2147483647", "-02147483648", "-2147483650", "-4294967296", "-4294967297", &minus_five, &minus_nines,
        "-", "- 5", "--5", "-\n5", "-a", "-_", "+5", "1-2", "1 - 2", "1_0", "1a", "12abc34", "2147483648a",
        "2147483648;2147483648\n2147483648 7", "1.5", "1.a", "1@a", "0x10", "5 -5 - 5",
    ];
    let lines = titled("a number out of range on a later line", ["\n# 9999999999\n\n 9999999999\n9999999999\nx"]);
    let (long_name, before_long) =
        (format!("{} 9999999999", "x".repeat(NAME + 1)), format!("9999999999 {}", "x".repeat(NAME + 1)));
    let others = [
        "$ 9999999999", "9999999999 $", "-9999999999 9999999999", "9999999999 -9999999999", "/*9999999999",
        "9999999999/*", &long_name, &before_long,
    ];
    let no_numbers = ["x2147483648 @f2147483648 .a2147483648 -2147483648 /* 2147483648 */ # 9999999999"];
    [
        titled("numbers", texts),
        lines,
        titled("a number out of range and another refusal", others),
        titled("digits in names and comments", no_numbers),
    ]
    .concat()
}

/// Comments closed, not closed, in each other, and beside tokens.
fn comments() -> Vec<Titled> {
    titled(
        "comments",
        [
            "#", "#\n", "# a", "# a\n", "# a\nx", "#\n\nx", "# a\r\nx", "##\n#\nx", "//", "//\n", "// a", "// a\nx",
            "//\n\nx", "///", "//*\nx", "//*/\nx", "x//y\nz", "x#y\nz", "/", "/ /", "/a", "/\n/", "x/", "/**/",
            "/* */", "/*/", "/*/*/", "/**", "/* *", "/*", "/* a", "/***/", "/****/", "/*****/", "/* **/", "/* ***/",
            "/* * / */", "/* * /", "/*\n\n*/x\ny", "\n/* \n *", "/* a */ b /* c */ d", "/* /* */ */", "/* // */ x",
            "/* # */x", "# /*\nx */", "// /*\nx", "// a\n", "x//", "x #\n", "/* */\n", "/* a\n*/\n", "/**/x/**/",
            "/**//**/", "x/**/y", "*/", "/*x*\n/*/", "a/* */1/* */@b", "-/* */5", "@/**/f", "\n\n/", "\n#\n/*",
        ],
    )
}

/// Bytes that begin nothing, zero bytes, line ends, and bytes that are no ASCII.
fn bytes() -> Vec<Titled> {
    let control = (0..9).chain(11..13).chain(14..32);
    let alone = control.chain(*b"!\"$%&'*+<>?[\\]^_`|~\x7f");
    let mut texts: Vec<Titled> = alone.map(|byte| (format!("the byte {byte}"), vec![byte])).collect();
    texts.extend(titled("blanks", [" \t\r\n \t\r\n"]));
    texts.extend(titled("lines end in CR and newline", ["a\r\nb\r\nc"]));
    texts.extend(titled("a CR is no line's end", ["a\rb\rc"]));
    texts.extend(titled("a zero byte after tokens", ["@f {\n\0}"]));
    texts.extend(titled("a zero byte at the end", ["x \0"]));
    texts.extend(titled("a zero byte in a name", ["a\0b"]));
    texts.extend(titled("zero bytes in comments", ["# \0\n/* \0 */// \0"]));
    texts.extend(titled("control bytes in comments", ["#\x01\x02\x03\x04\x05\x06\x07\x08\t\nx"]));
    let lines = [9, 10, 99, 100, 999, 1000, 9999, 10000];
    texts.extend(lines.map(|line| (format!("an unexpected byte on line {line}"), on_line(line, b" $"))));
    let above: [(&str, &[u8]); 12] = [
        ("alone", b"\x80"),
        ("alone", b"\xff"),
        ("as UTF-8", "é".as_bytes()),
        ("at the end", b"@f { nop; }\xc3"),
        ("in a comment", b"# \xe9\nx"),
        ("in a comment", "/* ü */".as_bytes()),
        ("in a comment", b"//\x80"),
        ("after a refusal", b"$ \x80"),
        ("after a comment that is not closed", b"/* \x80"),
        ("after newlines", b"\n\n\n\x80"),
        ("in a name", b"na\xefve"),
        ("between zero bytes", b"\x00\xff\x00"),
    ];
    texts.extend(above.map(|(title, text)| (format!("a byte above 127 {title}"), text.to_vec())));
    texts
}

// ---- limits ------------------------------------------------------------------------------------------------------------

fn byte_limit() -> Vec<Titled> {
    let mut texts: Vec<Titled> = [BYTES, BYTES + 1].into_iter().flat_map(at_length).collect();
    texts.extend(titled("more than enough bytes", [b"\n".repeat(BYTES + 10)]));
    texts
}

/// Texts of a length.
pub fn at_length(length: usize) -> Vec<Titled> {
    let filled = |front: &[u8], fill: &[u8], back: &[u8]| {
        let middle = fill.iter().copied().cycle().take(length - front.len() - back.len());
        front.iter().copied().chain(middle).chain(back.iter().copied()).collect::<Vec<u8>>()
    };
    let closed = if length.is_multiple_of(2) { "*/" } else { " */" };
    vec![
        (format!("{length} blanks"), filled(b"", b" ", b"")),
        (format!("{length} newlines"), filled(b"", b"\n", b"")),
        (format!("{length} bytes, the last not ASCII"), filled(b"", b" ", b"\x80")),
        (format!("{length} bytes, the first not ASCII"), filled(b"\xff", b" ", b"")),
        (format!("a comment of {length} bytes"), filled(b"#", b"x", b"")),
        (format!("a comment of {length} bytes, not closed"), filled(b"/*", b"x", b"")),
        (format!("a comment of {length} bytes, closed"), filled(b"/*", b"*x", closed.as_bytes())),
        (format!("{length} digits"), filled(b"", b"9", b"")),
        (format!("{length} zeros"), filled(b"", b"0", b"")),
        (format!("{length} bytes of a number below all"), filled(b"-", b"1", b"")),
        (format!("{length} letters"), filled(b"", b"a", b"")),
        (format!("{length} bytes, the last unexpected"), filled(b"", b"\n", b"$")),
        (format!("{length} bytes, the last a token"), filled(b"", b" ", b";")),
        (format!("{length} semicolons"), filled(b"", b";", b"")),
    ]
}

/// What follows, with a word on it.
type Rest = (&'static str, String);

fn with_rests(title: &str, front: &[u8], rests: impl IntoIterator<Item = Rest>) -> Vec<Titled> {
    let text = |rest: String| [front, rest.as_bytes()].concat();
    rests.into_iter().map(|(word, rest)| (format!("{title} {word}"), text(rest))).collect()
}

/// What may follow one token less than there is room for: one more, which is the end.
fn after_the_last_but_one() -> Vec<Rest> {
    let long = format!(" {}", "x".repeat(NAME + 1));
    let rests: [(&str, &str); 9] = [
        ("and the end", ""),
        ("a number out of range", "2147483648"),
        ("a comment and the end", "//x"),
        ("a newline and the end", "\n"),
        ("an unexpected byte", "$"),
        ("a comment not closed", "/*"),
        ("a minus", "-"),
        ("a new name", "\n x"),
        ("a name too long", &long),
    ];
    rests.map(|(word, rest)| (word, rest.to_owned())).to_vec()
}

/// What may follow as many tokens as there is room for.
pub fn after_all_tokens() -> Vec<Rest> {
    let (long, long_global) = (format!(" {}", "x".repeat(NAME + 1)), format!("\n@{}", "x".repeat(NAME)));
    let rests: [(&str, &str); 19] = [
        ("and the end", ""),
        ("a newline and the end", "\n"),
        ("a number out of range", "\n 2147483648 ;"),
        ("a comment and the end", "/* */"),
        ("a line comment and the end", "#\n"),
        ("comments and a token", "//\n\n/**/;"),
        ("a token", "\n ="),
        ("a number", " 5"),
        ("a number below zero", " -5"),
        ("a word", " nop"),
        ("a new name", " x"),
        ("an unexpected byte", "\n$"),
        ("a comment not closed", " /***/"),
        ("a minus", " -"),
        ("a number below all", " -2147483649"),
        ("a name too long", &long),
        ("a global too long", &long_global),
        ("a slash", "/"),
        ("a sigil alone", "@"),
    ];
    rests.map(|(word, rest)| (word, rest.to_owned())).to_vec()
}

fn token_limit() -> Vec<Titled> {
    let less = TOKENS - 1;
    let mut texts = with_rests(&format!("{less} tokens,"), &b";".repeat(less), after_the_last_but_one());
    texts.extend(with_rests(&format!("{TOKENS} tokens,"), &b";".repeat(TOKENS), after_all_tokens()));
    texts.extend([
        (format!("{less} names that are one"), b"x ".repeat(less)),
        (format!("{TOKENS} names that are one"), b"x ".repeat(TOKENS)),
        (format!("{less} tokens on as many lines"), b";\n".repeat(less)),
        (format!("{TOKENS} numbers"), b"1 ".repeat(TOKENS)),
    ]);
    texts
}

/// What may follow as many names as there is room for.
pub fn after_all_names() -> Vec<Rest> {
    let (last, long) = (&short_names(NAMES)[3 * NAMES - 3..], format!("\n{}", "y".repeat(NAME + 1)));
    let rests: [(&str, &str); 10] = [
        ("the first again", "Aa"),
        ("the last again", str::from_utf8(last).expect("ASCII")),
        ("a word", "nop"),
        ("a global of a known spelling", "@Aa"),
        ("a label", "\n .Aa"),
        ("a name too long", &long),
        ("an unexpected byte", "\n$"),
        ("a name in a comment", "/* new */ // new"),
        ("a number", "2147483647 1"),
        ("a number out of range", " 2147483648 new"),
    ];
    rests.map(|(word, rest)| (word, rest.to_owned())).to_vec()
}

fn name_limit() -> Vec<Titled> {
    let all_names = short_names(NAMES);
    let mut texts = vec![
        (format!("{NAMES} names"), all_names.clone()),
        (format!("{} names", NAMES + 1), short_names(NAMES + 1)),
        ("300 names, twice".to_owned(), short_names(300).repeat(2)),
    ];
    texts.extend(with_rests(&format!("{NAMES} names and"), &all_names, after_all_names()));
    let both = at_both_limits();
    texts.extend(titled("both limits", [&both]));
    let rests = [
        ("the end", ";".to_owned()),
        ("a known name", " ;Aa".to_owned()),
        ("a new name", ";\n new".to_owned()),
        ("a new label", "; .Aa".to_owned()),
        ("a new name too long", format!(";\n {}", "z".repeat(NAME + 1))),
        ("an unexpected byte", ";_".to_owned()),
    ];
    texts.extend(with_rests("both limits, and a token above, and", &both, rests));
    texts
}

/// As many names and, with the end, as many tokens as there is room for.
pub fn at_both_limits() -> Vec<u8> {
    [short_names(NAMES), b";".repeat(TOKENS - 1 - NAMES)].concat()
}

fn long_names() -> Vec<Titled> {
    let mut texts = Vec::new();
    for (first, kind) in [(b'n', "local"), (b'@', "global"), (b'.', "label")] {
        for length in [NAME - 1, NAME, NAME + 1, NAME + 2, 300] {
            let name = [b"\n", &[first][..], &b"n".repeat(length - 1)].concat();
            texts.push((format!("a {kind} of {length} bytes"), name));
        }
    }
    let (n, c, g) = ("n".repeat(63), "c".repeat(NAME + 1), "g".repeat(NAME));
    let beginnings = [64, 63, 62, 64, 1, 63].map(|length| "k".repeat(length)).join(" ");
    texts.extend(titled("long names that differ in the last byte", [format!("{n}a {n}b {n}a")]));
    texts.extend(titled("a long name and its beginnings", [beginnings]));
    texts.extend(titled("a name of digits and _ of 65 bytes", [format!("a{}", "_9".repeat(32))]));
    texts.extend(titled("a word that grows too long", ["nop".repeat(22)]));
    texts.extend(titled("a global that is too long by its sigil", [format!("@{g}")]));
    texts.extend(titled("a name too long after a line", [format!("a\nb\n{c}\n$")]));
    texts.extend(titled("an unexpected byte before a name too long", [format!("${c}")]));
    texts
}

// ---- programs ----------------------------------------------------------------------------------------------------------

/// Programs as people write them, and not quite so.
fn programs() -> Vec<Titled> {
    let factorial = FACTORIAL.replacen("  jmp .head;\n", "", 1).replace("// five", "         // five");
    let many = "@f(a: int): int { b: int = add a a; ret b; }\n".repeat(20);
    titled(
        "a program",
        [
            "@main {\n  v0: int = const 1;\n  v1: int = const 2;\n  v2: int = add v0 v1;\n  print v2;\n  ret;\n}\n",
            &factorial,
            GCD,
            "@b(x:bool,y:bool):bool{a:bool=and x y;o:bool=or x y;n:bool=not a;z:bool=and n o;ret z;}",
            "@m{i:int=const -2147483648;j:int=const 2147483647;k:int=div i j;lt:bool=lt i j;}",
            "@cmp(a: int, b: int) {\r\n\tl: bool = lt a b;\r\n\tg: bool = gt a b;\r\n\te: bool = ge a b;\r\n\tret;\r\n}\r\n",
            "/* two\n   lines */ @f { nop; } /* and\n\n a star * */ @g { call @f; } # the end",
            "@main {\n  x: int = const 1\n  y: float = const 1.5;\n}\n",
            "@main {\n  s: int = const 10; /* not closed *\n  print s;\n}\n",
            "@main {\n  a: int = sub b -;\n}\n",
            "@main {\n  t: bool = const true;\n  u: bool = const false;\n  eq: bool = eq t u;\n  br eq .a .b;\n.a:\n  ret;\n.b:\n  ret;\n}\n",
            &many,
        ],
    )
}

/// Knuth's MMIX, and not `Dice`: with it these texts were first drawn, and they stay the same.
struct Drawn(u64);

impl Drawn {
    fn below(&mut self, end: usize) -> usize {
        self.0 = self.0.wrapping_mul(6_364_136_223_846_793_005).wrapping_add(1_442_695_040_888_963_407);
        (self.0 >> 33) as usize % end
    }

    fn one<T: Copy>(&mut self, choices: &[T]) -> T {
        choices[self.below(choices.len())]
    }
}

fn random() -> Vec<Titled> {
    let dice = &mut Drawn(20_240_117);
    let pieces: Vec<Titled> =
        (0..45).map(|number| (format!("random pieces {number}"), random_pieces(dice, number % 3 == 2))).collect();
    // Bytes of the language alone, then with any ASCII byte, then with any byte.
    let ends = [None, Some(128), Some(256)].into_iter().cycle().take(45).enumerate();
    let bytes = ends.map(|(number, end)| (format!("random bytes {number}"), random_bytes(dice, end)));
    pieces.into_iter().chain(bytes).collect()
}

fn random_pieces(dice: &mut Drawn, with_odd_ones: bool) -> Vec<u8> {
    let words = [&keywords()[..], &WORDS].concat();
    let long = "n".repeat(NAME + 1);
    let odd = [&ODD[..], &[&long, "@9", "'"]].concat();
    let mut text = String::new();
    for _ in 0..3 + dice.below(24) {
        let is_odd = with_odd_ones && dice.below(20) == 0;
        text.push_str(dice.one(if is_odd { &odd } else { &words }));
        if dice.below(6) > 0 {
            text.push_str(dice.one(&GAPS));
        }
    }
    text.into_bytes()
}

const WORDS: [&str; 26] = [
    "x", "y", "v0", "v1", "long_name", "@f", "@main", "@g2", ".a", ".b1", ".loop", "0", "1", "42", "-1", "-0",
    "2147483647", "-2147483648", ":", ";", ",", "=", "(", ")", "{", "}",
];
const GAPS: [&str; 21] = [
    " ", " ", " ", " ", " ", " ", " ", " ", "\n", "\n", "\n", "\n", "\t", "\r\n", "  ", "# c\n", "// d\n", "/* e */",
    "/* f\n */", "/**/", "\n\n",
];
const ODD: [&str; 12] = ["-", "@", ".", "/", "/*", "_", "$", "-2147483649", "2147483648", "\0", "/***/", "*"];

fn random_bytes(dice: &mut Drawn, end: Option<usize>) -> Vec<u8> {
    let length = 1 + dice.below(40);
    let byte = |_| match end {
        Some(end) if dice.below(12) == 0 => dice.below(end) as u8,
        _ => dice.one(b"ab_Z09 \n\t@.;:{}-/*#=(),"),
    };
    (0..length).map(byte).collect()
}

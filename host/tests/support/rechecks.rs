//! Rechecks that are the same each time, with a word on each: document 01's sentences on recheck, every number, and the
//! limits, each by its least texts. The fixed cases of crates/replay_check are made of them.
use super::edits::Edit;
use super::model::{self, BYTES, Checked, ROW, TABLE};
use super::records::Cells;
use super::texts::short_names;

/// What recheck is called with. The table is what check writes for the old text, with some cells changed.
#[derive(Clone, PartialEq)]
pub struct Recheck {
    pub title: String,
    pub old: Vec<u8>,
    /// Cells, each with what it is changed to.
    pub changes: Vec<(usize, u32)>,
    /// How many cells of the table are lent.
    pub length: usize,
    pub number: u32,
    pub new: Vec<u8>,
}

impl Recheck {
    fn new(title: &str, old: impl AsRef<[u8]>, number: u32, new: impl AsRef<[u8]>) -> Self {
        let (old, new) = (old.as_ref().to_vec(), new.as_ref().to_vec());
        Self { title: title.to_owned(), old, changes: Vec::new(), length: TABLE, number, new }
    }

    fn changed(self, changes: &[(usize, u32)]) -> Self {
        Self { changes: changes.to_vec(), ..self }
    }

    fn lent(self, length: usize) -> Self {
        Self { length, ..self }
    }

    /// The cells of the table that are lent. Check leaves zeros behind the headers.
    pub fn table(&self) -> Vec<u32> {
        let mut table = Cells::of_check(&model::check(&self.old).said).functions;
        table.resize(LONGER, 0);
        self.changes.iter().for_each(|&(cell, value)| table[cell] = value);
        table.truncate(self.length);
        table
    }

    /// The model's answer.
    pub fn answer(&self) -> Checked {
        model::recheck(&self.old, &self.table(), self.number, &self.new)
    }

    /// It as an edit of the old text, where the table is as check wrote it for a text that it accepts.
    pub fn edit(&self) -> Option<Edit> {
        let before = model::check(&self.old).said;
        let number = self.number as usize;
        let is_edit =
            self.changes.is_empty() && self.length >= TABLE && self.number < self.table()[0] && before.number() == 0;
        is_edit.then(|| Edit { old: self.old.clone(), before, number, new: self.new.clone() })
    }
}

/// The most cells of a table that can be lent.
pub const LONGER: usize = TABLE + 16;

/// All of them.
pub fn all() -> Vec<Recheck> {
    [
        documents(),
        lexing(),
        not_one_function(),
        headers(),
        bodies(),
        typing(),
        limits(),
        readings(),
        bad_tables(),
        bad_cells(),
        other_tables(),
    ]
    .concat()
}

/// Those that are tried with slices of their sizes, and with short ones.
pub fn few() -> [Recheck; 3] {
    ["@f { ret; }", "@f { ret x; }", "@g { ret; }"].map(|new| Recheck::new("", ONE, 0, new))
}

// ---- the old texts -----------------------------------------------------------------------------------------------------

const ONE: &str = "@f { nop; }";

/// A function on line 3.
const THIRD: &str = "\n\n@f { nop; }";

/// Four functions, one a line, with four types. Behind the last one's name are more bytes than a name may have.
const FOUR: &str = "@i(a: int): int { ret a; }
@v { nop; }
@p(n: int, c: bool) { nop; }
@b: bool { t: bool = const true; ret t; } # as many as a name may have, and some";
const I: u32 = 0;
const V: u32 = 1;
const P: u32 = 2;
const B: u32 = 3;

fn titled<T: AsRef<[u8]>>(
    title: &str,
    old: &str,
    number: u32,
    texts: impl IntoIterator<Item = T>,
) -> impl Iterator<Item = Recheck> {
    texts.into_iter().map(move |new| Recheck::new(title, old, number, new))
}

/// Of the four functions.
fn of_four(title: &str, texts: &[(u32, &str)]) -> Vec<Recheck> {
    texts.iter().map(|(number, new)| Recheck::new(title, FOUR, *number, new)).collect()
}

// ---- the new text alone ------------------------------------------------------------------------------------------------

fn documents() -> Vec<Recheck> {
    titled("document 01", ONE, 0, ["@f { ret; }", "@f: int { nop; }"]).collect()
}

fn lexing() -> Vec<Recheck> {
    let texts: [&[u8]; 20] = [
        b"\xff", b"\n@f { nop; }\xc3", b"@f { nop; } $ \x80", b"/*", b"@f {\n nop; /* }", b"@f { nop; /***/ }",
        b"/* @f { nop; }", b"$", b"@f { nop; }\n@", b"@f {\n x: int =\n const $5; }", b" $", b"@g { $", b"@f { . }",
        b"-", b"@f { x: int = const -; }", b"@f { nop\n-2147483649; }", b"@f { nop -2147483648; }",
        b"@f { x: int =\n const 2147483648; }", b"2147483648", b"@f { nop; }2147483648",
    ];
    titled("lexing, with lines from the replaced function's", THIRD, 0, texts).collect()
}

fn not_one_function() -> Vec<Recheck> {
    let no_name = [
        "", " @f { nop; }", "\n@f { nop; }", "/**/@f { nop; }", "nop }", ".f { nop; }", "f { nop; }", "{ nop; }", "}",
        "nop @f { nop; }",
    ];
    let no_brace = [
        "@f", "@f { nop;", "@f { nop; };", "@f { nop; } ", "@f { nop; }\n", "@f { nop; }//", "@f { nop; } # }",
        "@f { nop; }/* */", "@f { nop; }2147483647", "@f { nop; } @g", "@g { nop; } ", "@f { nop nop; } ",
    ];
    let second = ["@f { nop; } @g { nop; }", "@f {\nnop; }\n@f { ret; }", "@f { nop; } @g }", "@f { ret x; } @g { }"];
    let behind =
        ["@f { nop; } }", "@f { nop; }\nnop }", "@f { nop; } .a }", "@f { nop; } 5 @g }", "@f { ret x; } nop }"];
    let before = [
        "@f { } @g { nop; }", "@f { jmp .a; } @g { nop; }", "@f { } nop }", "@f { jmp .a; } nop }",
        "@f { ret; nop; } @g { nop; }",
    ];
    titled("its first byte doesn't begin a global", THIRD, 0, no_name)
        .chain(titled("its last byte is no brace", THIRD, 0, no_brace))
        .chain(titled("another global behind the closing brace", THIRD, 0, second))
        .chain(titled("another token behind the closing brace", THIRD, 0, behind))
        .chain(titled("what comes before that", THIRD, 0, before))
        .collect()
}

fn headers() -> Vec<Recheck> {
    let refused = [
        "@f nop }", "@f: nop { nop; }", "@f(5: int) { nop; }", "@f(a: x) { nop; }", "@f(a: int { nop; }",
        "@f(a: int, ) { nop; }", "@f { nop; } { }",
    ];
    let before = ["@g(a int) { nop; }", "@g: nop { nop; }"];
    let behind = ["@g nop }", "@g { ret; nop; }", "@g { nop; } @f { nop; }", "@g { }", "@g { call @g; }"];
    let name = [(V, "@w { nop; }"), (V, "@vv { nop; }"), (V, "@V { nop; }"), (P, "@v(n: int, c: bool) { nop; }")];
    let result = [
        (V, "@v: int { nop; }"),
        (I, "@i(a: int) { nop; }"),
        (I, "@i(a: int): bool { nop; }"),
        (B, "@b: int { nop; }"),
    ];
    let formals = [
        (V, "@v(a: int) { nop; }"),
        (I, "@i: int { nop; }"),
        (P, "@p(n: int) { nop; }"),
        (P, "@p(n: int, c: bool, d: bool) { nop; }"),
    ];
    let types = [
        (P, "@p(n: int, c: int) { nop; }"),
        (P, "@p(n: bool, c: bool) { nop; }"),
        (P, "@p(c: bool, n: int) { nop; }"),
        (I, "@i(a: bool): int { nop; }"),
    ];
    let kept = [
        (V, "@v() { nop; }"),
        (V, "@v\n{ nop; }"),
        (P, "@p(x: int, y: bool) { nop; }"),
        (I, "@i(a\n: int /* */):int { ret a; }"),
        (P, "@p(n: int, n: bool) { nop; }"),
    ];
    [
        titled("a header that is refused", ONE, 0, refused).collect(),
        titled("before the name would be entered", ONE, 0, before).collect(),
        titled("behind the place where the name would be entered", ONE, 0, behind).collect(),
        of_four("another name", &name),
        of_four("another result type", &result),
        of_four("another number of formals", &formals),
        of_four("another type of a formal", &types),
        of_four("the header is kept", &kept),
    ]
    .concat()
}

fn bodies() -> Vec<Recheck> {
    let refused = [
        "@f { nop }", "@f { x int = id y; }", "@f { print 5; }", "@f { call f; }", "@f { jmp x; }",
        "@f { x: y = id z; }", "@f { x: int = const ; }", "@f { x: int = const nop; }", "@f { x: int = ; }",
        "@f {\nret; nop; }", "@f { .a: nop;\n.a: nop; }", "@f {\njmp .z; }", "@f { .a: br q .a .z; }", "@f { }",
        "@f { nop; .a: .b: nop; }", "@f { .a: }", "@f { nop; .a: jmp .b; .c: .d: nop; }",
    ];
    titled("parsing", THIRD, 0, refused).collect()
}

fn typing() -> Vec<Recheck> {
    let alone = [
        "@v { x: int = const 1;\nx: bool = const true; }", "@v { x: int = id y; }", "@v { x: int = const true; }",
        "@v { x: int = const 1; ret x; }", "@v { x: int = const 1; y: bool = add x x; }",
        "@v { ret x; .a: x: int = const true; }", "@v { jmp .b; .a: x: int = id y; .b: z: int = id w; }",
        "@v { x: int = id n; }",
    ];
    let calls = [
        "@v { call @nobody; }", "@v { call @v; }", "@v { x: int = call @v; }", "@v { x: int = call @i x; }",
        "@v { x: bool = call @i x; }", "@v { x: int = call @i; }", "@v { x: int = call @i y; }", "@v { call @b; }",
        "@v { x: bool = call @b; x: int = call @i x; }", "@v { x: bool = call @b;\ny: int = call @i x; }",
        "@v { x: bool = call @b; call @p x x; }", "@v { x: int = call @i x; call @p x; }",
    ];
    let results = [
        (B, "@b: bool { nop; }"),
        (B, "@b: bool { ret; }"),
        (B, "@b: bool { x: int = const 1; ret x; }"),
        (I, "@i(b: int): int { ret a; }"),
        (I, "@i(b: int): int { b: bool = const true; ret b; }"),
    ];
    titled("typing", FOUR, V, alone)
        .chain(titled("callees are the old text's", FOUR, V, calls))
        .chain(of_four("its own result and formals", &results))
        .collect()
}

// ---- limits ------------------------------------------------------------------------------------------------------------

/// Each limit at it and one above.
fn limits() -> Vec<Recheck> {
    let bytes = |length: usize| [b"@f{ret;".to_vec(), vec![b' '; length - 8], b"}".to_vec()].concat();
    let tokens = |nops: usize| format!("@f{{{}}}", "nop;".repeat(nops));
    let names = |count: usize| {
        let names = short_names(count);
        let prints = names.chunks(3).flat_map(|name| [b"print ", &name[..2], b";"].concat());
        [b"@f{".to_vec(), prints.collect(), b"}".to_vec()].concat()
    };
    let name = |length: usize| format!("@f {{ print {}; }}", "n".repeat(length));
    let arguments = |count: usize| format!("@f{{call @f{};}}", " n".repeat(count));
    let labels = |count: usize| {
        let labels: String = (100..100 + count).map(|number| format!(".l{number}:")).collect();
        format!("@f{{{labels}ret;}}")
    };
    let formals = |count: usize| format!("@f({}n:int){{nop;}}", "n:int,".repeat(count - 1));
    let of_one = titled(
        "limits",
        ONE,
        0,
        [
            bytes(BYTES),
            bytes(BYTES + 1),
            vec![0xff; BYTES + 1],
            tokens(2046).into_bytes(),
            tokens(2047).into_bytes(),
            names(1024),
            name(64).into_bytes(),
            name(65).into_bytes(),
            arguments(16).into_bytes(),
            arguments(17).into_bytes(),
            labels(255).into_bytes(),
            labels(256).into_bytes(),
            formals(16).into_bytes(),
            formals(17).into_bytes(),
            formals(17).replacen("@f", "@g", 1).into_bytes(),
        ],
    );
    let last = "@f { call @f; }";
    let of_many = [
        Recheck::new("sixteen formals", formals(16), 0, formals(16)),
        Recheck::new("the last of 64 functions", "@f{nop;}".repeat(64), 63, last),
        Recheck::new("a function on the last line", "\n".repeat(BYTES - 8) + "@f{nop;}", 0, "@f {\n}"),
    ];
    of_one.chain(of_many).collect()
}

// ---- what an accepted one reads as -------------------------------------------------------------------------------------

fn readings() -> Vec<Recheck> {
    let texts = [
        (V, "@v { .a: x: int = const 1; br x .a .b;\n.b: print y; }"),
        (I, "@i(x: int): int {\n\ny: int = call @i x; ret y; }"),
        (P, "@p(n: int, c: bool) { .a: br c .a .b; .b: call @p n c; .dead: nop; }"),
        (B, "@b: bool { # \n t: bool = call @b; ret t; }"),
        (V, "@v { x: int = const 1; y: int = call @i x; call @v; z: bool = call @b; call @p y z; }"),
    ];
    let same_name = "@f { nop; }\n@g(a: int): int { ret a; }\n@f { ret; }";
    let twice = [(0, "@f { call @f; }"), (2, "@f { x: int = call @g x; call @f; }"), (2, "@f: int { nop; }")];
    let twice = twice.map(|(number, new)| Recheck::new("functions of one name", same_name, number, new));
    let ones = [
        ("@f { x: int = const 1; }", "@f { y: int = id x; }"),
        ("@f { nop; } @g { nop; }", "@f { call @g; }"),
        ("@f { call @g; } @g { nop; }", "@f { call @f; }"),
        ("# @h\n@f { nop; } @g { .a: jmp .a; }", "@f { .a: call @h; }"),
    ];
    let ones = ones.map(|(old, new)| Recheck::new("nothing of the old text but headers", old, 0, new));
    [of_four("an accepted function", &texts), twice.to_vec(), ones.to_vec()].concat()
}

// ---- header tables -----------------------------------------------------------------------------------------------------

/// Cells of a row that recheck looks at.
const PLACE: usize = 3;
const LENGTH: usize = 4;
const LINE: usize = 5;
const RESULT: usize = 6;
const TYPE: usize = 7;
const BLOCKS: usize = 11;
const FORMALS: usize = 12;
const FORMAL_TYPE: usize = 14;

fn cell(row: u32, cell: usize) -> usize {
    1 + ROW * row as usize + cell
}

fn kept(title: &str) -> Recheck {
    Recheck::new(title, FOUR, V, "@v { ret; }")
}

/// 42 by text, size, number and count; and what is just not so.
fn bad_tables() -> Vec<Recheck> {
    let short = "a table that is shorter than its size";
    let lengths = [0, 1, 1 + 4 * ROW, TABLE - 1].map(|length| kept(short).lent(length));
    let behind: Vec<(usize, u32)> = (TABLE..LONGER).map(|cell| (cell, u32::MAX)).collect();
    let longer = [TABLE + 1, LONGER].map(|length| kept("a longer table").changed(&behind).lent(length));
    let number = "a number that isn't below the count";
    let numbers = [4, 5, 64, u32::MAX].map(|function| Recheck { number: function, ..kept(number) });
    let counts = [0, 1, 65, u32::MAX].map(|count| kept("another count").changed(&[(0, count)]));
    let more = kept("a count with a row that check didn't write").changed(&[(0, 5)]);
    let fewer = kept("a count that leaves the last rows out").changed(&[(0, 2), (cell(P, LINE), 0)]);
    let many = |count: u32| {
        let old = "@f{nop;}".repeat(64);
        Recheck::new("64 functions", old, 63, ONE).changed(&[(0, count)])
    };
    // Check refuses a text that is too long, so that all of its one header is written here.
    let row = [(PLACE, 0), (LENGTH, 2), (LINE, 1), (RESULT, 3), (BLOCKS, 1)].map(|(at, value)| (cell(0, at), value));
    let row = [vec![(0, 1)], row.to_vec()].concat();
    let padded = |length: usize| [ONE.as_bytes(), &vec![b' '; length - ONE.len()]].concat();
    let old = |length: usize| Recheck::new("how long the old text is", padded(length), 0, ONE).changed(&row);
    let others = [
        more,
        fewer,
        many(64),
        many(65),
        many(64).changed(&[(cell(63, LINE), 0)]),
        Recheck { number: 64, ..many(65) },
        old(BYTES),
        old(BYTES + 1),
        Recheck::new("an old text with no function", "", 0, ONE),
        Recheck::new("an old text that check refuses", "@f { }", 0, ONE),
        Recheck::new("42 comes before 31", "", 0, vec![0xff; BYTES + 1]),
        Recheck::new("42 comes before 1", ONE, 1, b"\xff"),
        Recheck::new("42 comes before 40", ONE, 1, ""),
        Recheck::new("42 comes before 41", ONE, 1, "@g { nop; }"),
    ];
    [lengths.to_vec(), longer.to_vec(), numbers.to_vec(), counts.to_vec(), others.to_vec()].concat()
}

/// Each cell that has a range: at its ends and outside, in the replaced row and in another; and cells that have none.
fn bad_cells() -> Vec<Recheck> {
    let end = FOUR.len() as u32;
    let outside = [
        (PLACE, &[end - 1, 16_385, u32::MAX][..]),
        (LENGTH, &[0, 1, 65, u32::MAX]),
        (LINE, &[0, 16_386]),
        (RESULT, &[0, 4]),
        (TYPE, &[64, u32::MAX]),
        (BLOCKS, &[0, 257]),
        (FORMALS, &[17, u32::MAX]),
    ];
    let inside = [
        (PLACE, &[0, end - 2][..]),
        (LENGTH, &[2, 64]),
        (LINE, &[1, 16_385]),
        (RESULT, &[1, 3]),
        (TYPE, &[0, 63]),
        (BLOCKS, &[1, 256]),
    ];
    let free = [0, 1, 2, 8, 9, 10, 13, 43].map(|at| (cell(V, at), u32::MAX));
    let mut all = Vec::new();
    for (row, which) in [(V, "the replaced row"), (B, "another row")] {
        let mut with = |what: &str, changes: &[(usize, u32)]| {
            all.push(kept(&format!("{what}, in {which}")).changed(changes));
        };
        for (at, values) in outside {
            values.iter().for_each(|value| with(&format!("cell {at} outside its range"), &[(cell(row, at), *value)]));
        }
        for (at, values) in inside {
            values.iter().for_each(|value| with(&format!("cell {at} at an end"), &[(cell(row, at), *value)]));
        }
        for ty in [0, 3] {
            let formal = [(cell(row, FORMALS), 1), (cell(row, FORMAL_TYPE), ty)];
            with("a formal's type outside its range", &formal);
            with("no formal, whatever its type", &formal[1..]);
        }
        let mut formals: Vec<(usize, u32)> = (0..15).map(|formal| (cell(row, FORMAL_TYPE + 2 * formal), 2)).collect();
        formals.extend([(cell(row, FORMALS), 16), (cell(row, FORMAL_TYPE + 30), 3)]);
        with("the last formal's type outside its range", &formals);
        *formals.last_mut().expect("a change") = (cell(row, FORMAL_TYPE + 30), 2);
        with("sixteen formals", &formals);
    }
    all.push(kept("cells that have no range").changed(&free));
    all.push(kept("a row behind the count").changed(&[(cell(4, LINE), u32::MAX)]));
    all
}

/// What a table says that check didn't write.
fn other_tables() -> Vec<Recheck> {
    let whole = kept("").table();
    let by = |title: &str, changes: &[(usize, u32)], new: &str| {
        Recheck { new: new.as_bytes().to_vec(), ..kept(title) }.changed(changes)
    };
    let line = "lines begin at the replaced row's";
    let last = [(cell(V, LINE), 16_385)];
    let number = "a function type's number is its row's";
    let numbers = [(cell(I, TYPE), 63), (cell(V, TYPE), 7)];
    let calls = "@v { x: int = const 1; y: int = call @i x; call @v; }";
    let named_v = [PLACE, LENGTH].map(|at| (cell(I, at), whole[cell(V, at)]));
    let two = "of two rows of one spelling the first is called, and the replaced one's header kept";
    let moved = |row: u32| [(cell(row, PLACE), whole[cell(row, PLACE)] + 1)];
    let formal = [(cell(P, FORMAL_TYPE), 2), (cell(P, FORMALS), 1), (cell(P, RESULT), 1)];
    vec![
        by(line, &last, "@v {\n}"),
        by(line, &last, "@v {\nnop }"),
        by(line, &last, "\n\n"),
        by(line, &last, "\x7f"),
        by(number, &numbers, calls),
        by(two, &named_v, "@v { ret; }"),
        by(two, &named_v, "@v(a: int): int { ret a; }"),
        by(two, &named_v, "@v { x: int = call @v x; }"),
        by(two, &named_v, "@v { call @v; }"),
        by(two, &named_v, "@v { x: int = call @i x; }"),
        by("a part that is no global is kept by no header", &moved(V), "@v { ret; }"),
        by("a part that is no global is called by nobody", &moved(I), "@v { x: int = call @i x; }"),
        by("its length decides what a name is", &[(cell(V, LENGTH), 3)], "@v { ret; }"),
        by("a callee's result and formals are its row's", &formal, "@v { c: bool = const true; x: int = call @p c; }"),
        by("a callee's result and formals are its row's", &formal, "@v { n: int = const 1; x: int = call @p n; }"),
        by("the replaced row's result is kept", &[(cell(V, RESULT), 2)], "@v: bool { x: bool = call @v; ret x; }"),
        by("the replaced row's result is kept", &[(cell(V, RESULT), 2)], "@v { ret; }"),
    ]
}

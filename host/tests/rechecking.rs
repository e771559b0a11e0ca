//! Recheck: this crate against the model of document 01, edit by edit and table by table; the model, by demand 3,
//! against a check of the whole edited text and against the Rust original; the C functions, by demand 3, against each
//! other in every cell; and answers of the model that are written down here.
//!
//! `PITCHSLEET_EDITS` says how many edits are generated, and how many rechecks with a table that check didn't write;
//! `PITCHSLEET_SEED` from which seed. Both are printed, with what came of them. Where the Rust files are not to be had
//! (oracle/README.md) that is said in one line, and the model alone is compared with.
mod support;

use std::io::Write;

use support::against_fresh::{Premise, compare_with_fresh};
use support::against_model::Lent;
use support::compare_edits::EditComparison;
use support::demand_3::hold_to_demand_3;
use support::edits::{self, Edit, Quadruple, table_of};
use support::model::{self, BYTES, ROW, TABLE};
use support::rechecks::{self, Recheck};
use support::said::{Said, Ty};
use support::texts::short_names;

const EDITS: u64 = 20_000;
const SEED: u64 = 1;

fn from_environment(name: &str, default: u64) -> u64 {
    match std::env::var(name) {
        Ok(value) => value.parse().unwrap_or_else(|_| panic!("{name} is a number")),
        Err(_) => default,
    }
}

// ---- demand 3 ----------------------------------------------------------------------------------------------------------

/// A run of the usual size reaches every number of parsing and typing where demand 3 speaks, those of recheck itself and
/// of lexing with other tables (but for 1 and the limits, which `limits` and `each_number` have), and breaks every premise.
#[test]
fn generated_edits() {
    let (seed, count) = (from_environment("PITCHSLEET_SEED", SEED), from_environment("PITCHSLEET_EDITS", EDITS));
    let mut comparison = EditComparison::new();
    comparison.all(edits::generated(seed, 0..count));
    comparison.by_other_tables(edits::with_other_tables(seed, 0..count));
    let report = comparison.report;
    // Not by `println!`, whose output a passing test keeps to itself.
    writeln!(std::io::stderr(), "rechecking: generated, seed {seed}: {report}").expect("standard error");
    assert!(report.is_clean(), "{report}");
    if count < EDITS {
        return;
    }
    for number in [0].into_iter().chain(5..=22).chain(36..=38) {
        assert!(report.answered(number) > 0, "no edit is answered with {number}");
    }
    for number in [0].into_iter().chain(2..=22).chain([36, 37, 40, 41, 42, 43]) {
        assert!(report.answered_by_other_tables(number) > 0, "no edit with another table is answered with {number}");
    }
    for premise in Premise::ALL {
        assert!(report.left_out(premise) > 0, "it is never otherwise than that {premise}");
    }
    assert!(report.other_readings() > 0, "no text has another function");
}

/// The fixed rechecks of crates/replay_check through the C function, with every number that recheck can have but 30; and by
/// demand 3 those that have a table as check wrote it.
#[test]
fn fixed_rechecks() {
    let lent = |recheck: &Recheck| Quadruple {
        old: recheck.old.clone(),
        table: recheck.table().iter().flat_map(|cell| cell.to_le_bytes()).collect(),
        number: recheck.number,
        new: recheck.new.clone(),
    };
    let mut comparison = EditComparison::new();
    comparison.by_other_tables(rechecks::all().iter().map(lent));
    comparison.all(rechecks::all().iter().filter_map(Recheck::edit));
    let report = comparison.report;
    assert!(report.is_clean(), "{report}");
    for number in (0..=22).chain(31..=34).chain(36..=38).chain(40..=43) {
        assert!(report.answered_by_other_tables(number) > 0, "no fixed recheck is answered with {number}");
    }
}

/// Where demand 3 says nothing, recheck and a check of the edited text may differ.
#[test]
fn where_demand_3_says_nothing() {
    let padded = [b"@f{ret;}".to_vec(), vec![b' '; BYTES - 8]].concat();
    let answers = [
        (padded, "@f{nop;ret;}", Premise::StaysInsideBytes, 0, 31),
        (b"@f{ret;}/* */".to_vec(), "@f{ret;}/*", Premise::LexesAlone, 2, 0),
        (b"@f{ret;}".to_vec(), "@f{ret;} ", Premise::RunsFromNameToBrace, 40, 0),
        (b"@f{ret;}".to_vec(), "@f{ret;}@g{ret;}", Premise::HoldsNoSecondFunction, 40, 0),
        (b"@f{ret;}".to_vec(), "@g{ret;}", Premise::KeepsTheHeader, 41, 0),
    ];
    for (old, new, premise, number, fresh) in answers {
        let before = model::check(&old).said;
        let edit = Edit { old, before, number: 0, new: new.as_bytes().to_vec() };
        let rechecked = compare_with_fresh(&edit).unwrap_or_else(|why| panic!("{new}: {why}"));
        assert_eq!(
            (rechecked.fails, rechecked.number, rechecked.fresh.said.number()),
            (Some(premise), number, fresh),
            "{new}"
        );
        let held = hold_to_demand_3(&mut Lent::new(), &edit).unwrap_or_else(|why| panic!("{new}: {why}"));
        assert_eq!((held.fails, held.number), (Some(premise), number), "{new}");
    }
}

// ---- answers that are written down -------------------------------------------------------------------------------------

/// Four functions, one a line, with four types. Behind the last one's name are more bytes than a name may have.
const OLD: &str = "@i(a: int): int { ret a; }
@v { nop; }
@f(n: int, c: bool) { nop; }
@b: bool { t: bool = const true; ret t; }
# as many as a name may have, and some
";
const I: u32 = 0;
const V: u32 = 1;
const F: u32 = 2;
const B: u32 = 3;

fn table(old: &str) -> Vec<u32> {
    table_of(&model::check(old.as_bytes()).said).expect("accepted")
}

fn rechecked(number: u32, new: &[u8]) -> Said {
    model::recheck(OLD.as_bytes(), &table(OLD), number, new).said
}

fn refused(number: u32, line: u32, place: usize, rest: &str) -> Said {
    Said::Refused { number, line, place, message: format!("[line {line}] Error {rest}\n").into_bytes() }
}

#[test]
fn texts_of_document_01() {
    let old = "@f { nop; }";
    let recheck = |new: &str| model::recheck(old.as_bytes(), &table(old), 0, new.as_bytes()).said;
    assert_eq!(recheck("@f { ret; }"), model::check(b"@f { ret; }").said);
    assert_eq!(recheck("@f: int { nop; }"), refused(41, 1, 0, ": header changed."));
}

/// Each number that a new text can have, with line, place and message.
#[test]
fn each_number() {
    let cases: [(&str, u32, usize, &str); 25] = [
        ("@v {\n /* }", 2, 6, ": Multiline comment no closed."),
        ("@v { $ }", 3, 5, ": Unexpected token: '$'."),
        ("@v { x: int = const -; }", 4, 20, ": Expected number after '-'."),
        ("@v { x: int = const 2147483648; }", 43, 20, ": Number out of range."),
        ("@v { nop }", 5, 9, "at '}': ';' expected."),
        ("@v { print 5; }", 6, 11, "at '5': Local identifier expected."),
        ("@v { call f; }", 7, 10, "at 'local_1': Global identifier expected."),
        ("@v { jmp x; }", 8, 9, "at 'local_1': Label identifier expected."),
        ("@v { x: y = id z; }", 9, 8, "at 'local_2': Type expected."),
        ("@v { x: int = const ; }", 10, 14, "at 'const': Integer or boolean constant expected."),
        ("@v { x: int = ; }", 11, 14, "at ';': Unexpected token."),
        ("@v { ret; nop; }", 12, 10, "at 'nop': Basic block must start with a label."),
        ("@v { .a: nop; .a: nop; }", 13, 14, "at '.a': Duplicate label found."),
        ("@v { jmp .z; }", 14, 5, ": Branch target '.z' is missing"),
        ("@v { x: int = const 1;\nx: bool = const true; }", 15, 39, "at 'x': Unexpected type 'bool'. Expected 'int'."),
        ("@v { x: int = id y; }", 16, 14, "at 'y': Undefined identifier."),
        ("@v { call @nobody; }", 16, 5, "at '@nobody': Undefined identifier."),
        ("@v { x: int = const true; }", 17, 20, "at 'true': 'int' type expected; 'bool' found"),
        ("@v { x: bool = call @i x; }", 17, 15, "at 'call': 'int' type expected; 'bool' found"),
        ("@v { x: int = call @v; }", 18, 14, "at 'call': Void functions cannot return a value."),
        ("@v { x: int = const 1; ret x; }", 18, 23, "at 'ret': Void functions cannot return a value."),
        ("@v { call @b; }", 19, 5, "at 'call': Non-void functions must return a value."),
        ("@v { x: int = call @i; }", 20, 14, "at 'call': 1 arguments expected, got 0"),
        ("@v { }", 22, 0, ": empty block."),
        ("@v { nop; .a: .b: nop; }", 22, 0, ": empty block."),
    ];
    for (new, number, place, rest) in cases {
        // Function 1 begins on line 2, and these two have a newline before the place.
        let line = if [2, 15].contains(&number) { 3 } else { 2 };
        assert_eq!(rechecked(V, new.as_bytes()), refused(number, line, place, rest), "{new}");
    }
    let terminator = "at 'nop': Block terminator expected to be jump, br, or ret.";
    assert_eq!(rechecked(B, b"@b: bool { nop; }"), refused(21, 4, 11, terminator));
    let ascii = ": Only ASCII input is supported.";
    assert_eq!(rechecked(V, b"\n\n@v { nop; }\xc3"), refused(1, 2, 0, ascii));
    assert_eq!(rechecked(F, b"\xff"), refused(1, 3, 0, ascii));
}

/// The limits, at each and one above.
#[test]
fn limits() {
    let bytes = |length: usize| [b"@v{ret;".to_vec(), vec![b' '; length - 8], b"}".to_vec()].concat();
    assert_eq!(rechecked(V, &bytes(BYTES)).number(), 0);
    assert_eq!(rechecked(V, &bytes(BYTES + 1)), refused(31, 0, 0, ": too many bytes."));

    let tokens = |nops: usize| format!("@v{{{}}}", "nop;".repeat(nops)).into_bytes();
    assert_eq!(rechecked(V, &tokens(2046)).number(), 0);
    assert_eq!(rechecked(V, &tokens(2047)), refused(32, 2, 3 + 4 * 2047, ": too many tokens."));

    let names = |count: usize| {
        let prints = short_names(count).chunks(3).flat_map(|name| [b"print ", &name[..2], b";"].concat()).collect();
        [b"@v{".to_vec(), prints, b"}".to_vec()].concat()
    };
    assert_eq!(rechecked(V, &names(1023)).number(), 0);
    assert_eq!(rechecked(V, &names(1024)), refused(33, 2, 3 + 9 * 1023 + 6, ": too many names."));

    let name = |length: usize| format!("@v {{ print {}; }}", "n".repeat(length)).into_bytes();
    assert_eq!(rechecked(V, &name(64)).number(), 0);
    assert_eq!(rechecked(V, &name(65)), refused(34, 2, 11, ": name too long."));

    let arguments = |count: usize| format!("@v{{call @v{};}}", " n".repeat(count)).into_bytes();
    assert_eq!(rechecked(V, &arguments(16)).number(), 20);
    assert_eq!(rechecked(V, &arguments(17)), refused(37, 2, 43, ": too many arguments."));

    let labels = |count: usize| {
        let labels: String = (100..100 + count).map(|number| format!(".l{number}:")).collect();
        format!("@v{{{labels}ret;}}").into_bytes()
    };
    assert_eq!(rechecked(V, &labels(255)).number(), 0);
    assert_eq!(rechecked(V, &labels(256)), refused(38, 2, 3 + 6 * 255, ": too many labels."));
}

/// 40 by each of its grounds.
#[test]
fn not_one_function() {
    let no_name = ["", " @v { nop; }", "nop }", ".v { nop; }", "v { nop; }", "/**/@v { nop; }", "{ nop; }", "}", "\n"];
    let no_brace = [
        "@v", "@v { nop;", "@v { nop; };", "@v { nop; } ", "@v { nop; }\n", "@v { nop; }//", "@v { nop; } # }",
        "@v { nop; } // }", "@v { nop; }/* */", "@v { nop; }2147483647", "@v { nop; } @w",
    ];
    for new in no_name.iter().chain(&no_brace) {
        assert_eq!(rechecked(V, new.as_bytes()), refused(40, 2, 0, ": not one function."), "{new}");
    }
    let second =
        [("@v { nop; } @w { nop; }", 2, 12), ("@v {\nnop; }\n@v { ret; }", 4, 12), ("@v { nop; } @w }", 2, 12)];
    for (new, line, place) in second {
        assert_eq!(rechecked(V, new.as_bytes()), refused(40, line, place, ": not one function."), "{new}");
    }
    let stray = [("@v { nop; } }", "}"), ("@v { nop; } nop }", "nop"), ("@v { nop; } .a }", "label_1")];
    for (new, item) in stray {
        let rest = format!("at '{item}': Global identifier expected.");
        assert_eq!(rechecked(V, new.as_bytes()), refused(7, 2, 12, &rest), "{new}");
    }
}

/// 41 by each of its grounds; and headers that are kept.
#[test]
fn header_changed() {
    let changed = [
        (V, "@w { nop; }"),
        (V, "@vv { nop; }"),
        (V, "@V { nop; }"),
        (F, "@v(n: int, c: bool) { nop; }"),
        (V, "@v: int { nop; }"),
        (I, "@i(a: int) { nop; }"),
        (I, "@i(a: int): bool { nop; }"),
        (V, "@v(a: int) { nop; }"),
        (I, "@i: int { nop; }"),
        (F, "@f(n: int) { nop; }"),
        (F, "@f(n: int, c: bool, d: bool) { nop; }"),
        (F, "@f(n: int, c: int) { nop; }"),
        (F, "@f(c: bool, n: int) { nop; }"),
    ];
    for (number, new) in changed {
        assert_eq!(rechecked(number, new.as_bytes()), refused(41, number + 1, 0, ": header changed."), "{new}");
    }
    let kept = [
        (V, "@v() { nop; }"),
        (V, "@v\n{ nop; }"),
        (F, "@f(x: int, y: bool) { nop; }"),
        (I, "@i(a\n: int /* */):int { ret a; }"),
    ];
    for (number, new) in kept {
        assert_eq!(rechecked(number, new.as_bytes()).number(), 0, "{new}");
    }
    // Two formals of one name are two formals: it is typing that refuses them.
    let rest = "at 'n': Unexpected type 'bool'. Expected 'int'.";
    assert_eq!(rechecked(F, b"@f(n: int, n: bool) { nop; }"), refused(15, 3, 0, rest));
}

/// What comes first, where a text has two faults.
#[test]
fn orders() {
    let cases: [(u32, &[u8], u32); 23] = [
        (V, b"@v { nop; } $ \xff", 1),
        (V, b" $", 3),
        (V, b"@w { $", 3),
        (V, b" 2147483648", 43),
        (V, b"@w { 2147483648 $", 43),
        (V, b"@v { nop nop; } ", 40),
        (V, b"@w { nop; } ", 40),
        (V, b"nop @v { nop; }", 40),
        (V, b"@w nop }", 41),
        (V, b"@v nop }", 5),
        (V, b"@w: nop { nop; }", 9),
        (V, b"@w(a int) { nop; }", 5),
        (V, b"@w { ret; nop; }", 41),
        (V, b"@w { nop; } @v { nop; }", 41),
        (V, b"@v { } @w { nop; }", 22),
        (V, b"@v { jmp .a; } @w { nop; }", 14),
        (V, b"@v { } nop }", 22),
        (V, b"@v { jmp .a; } nop }", 14),
        (V, b"@v { nop; .a: jmp .b; .c: .d: nop; }", 14),
        (V, b"@v { ret; nop; } @w { nop; }", 12),
        (V, b"@v { ret x; } @w { nop; }", 40),
        (V, b"@v { ret x; } nop }", 7),
        (V, b"@v { ret x; .a: x: int = const true; }", 16),
    ];
    for (function, new, number) in cases {
        assert_eq!(rechecked(function, new).number(), number, "{}", new.escape_ascii());
    }
    // A seventeenth formal is met before the name would be entered.
    let formals = |count: usize| format!("@f({}n:int){{nop;}}", "n:int,".repeat(count - 1)).into_bytes();
    assert_eq!(rechecked(F, &formals(16)), refused(41, 3, 0, ": header changed."));
    assert_eq!(rechecked(F, &formals(17)), refused(36, 3, 99, ": too many formals."));
    // Too long a text has no other fault, and a bad table comes before it.
    assert_eq!(rechecked(F, &[0xff; BYTES + 1]).number(), 31);
    assert_eq!(model::recheck(OLD.as_bytes(), &[], 0, &[0xff; BYTES + 1]).said.number(), 42);
}

/// "Accepted: what check says of a text with this one function", but for lines and function types.
#[test]
fn accepted_readings() {
    let texts = [
        (V, "@v { .a: x: int = const 1; br x .a .b;\n.b: print y; }"),
        (I, "@i(x: int): int {\n\ny: int = call @i x; ret y; }"),
        (F, "@f(n: int, c: bool) { .a: br c .a .b; .b: call @f n c; .dead: nop; }"),
        (B, "@b: bool { # \n t: bool = call @b; ret t; }"),
    ];
    for (function, new) in texts {
        let Said::Accepted { mut tokens, names, mut functions } = model::check(new.as_bytes()).said else {
            panic!("refused: {new}")
        };
        // The functions of the old text stand on a line each, and no two are of one type.
        tokens.iter_mut().for_each(|token| token.line += function);
        functions[0].line += function;
        functions[0].type_number = function as usize;
        let operations = functions[0].blocks.iter_mut().flat_map(|block| &mut block.operations);
        operations.filter_map(|operation| operation.callee.as_mut()).for_each(|c| c.ty = Ty::Fn(function as usize));
        assert_eq!(rechecked(function, new.as_bytes()), Said::Accepted { tokens, names, functions }, "{new}");
    }
    assert_eq!(callees(&rechecked(V, CALLS)), [Ty::Fn(0), Ty::Fn(1), Ty::Fn(3), Ty::Fn(2)]);
}

const CALLS: &[u8] = b"@v { x: int = const 1; y: int = call @i x; call @v; z: bool = call @b; call @f y z; }";

/// The types of the callees, in text order.
fn callees(said: &Said) -> Vec<Ty> {
    let Said::Accepted { functions, .. } = said else { panic!("refused: {said}") };
    let operations = functions[0].blocks.iter().flat_map(|block| &block.operations);
    operations.filter_map(|operation| operation.callee).map(|callee| callee.ty).collect()
}

// ---- header tables -----------------------------------------------------------------------------------------------------

/// Cells of a row that recheck looks at.
const PLACE: usize = 3;
const LENGTH: usize = 4;
const LINE: usize = 5;
const RESULT: usize = 6;
const TYPE: usize = 7;
const BLOCKS: usize = 11;
const FORMALS: usize = 12;

fn cell(row: u32, cell: usize) -> usize {
    1 + ROW * row as usize + cell
}

/// The old text's table with some cells changed.
fn changed(cells: &[(usize, u32)]) -> Vec<u32> {
    let mut table = table(OLD);
    cells.iter().for_each(|&(at, value)| table[at] = value);
    table
}

fn by_table(table: &[u32], new: &[u8]) -> Said {
    model::recheck(OLD.as_bytes(), table, V, new).said
}

/// 42 by each of its grounds: text, table, number and count.
#[test]
fn bad_header_tables() {
    let bad = refused(42, 0, 0, ": bad header table.");
    let whole = table(OLD);
    assert_eq!(whole.len(), TABLE);
    let new = b"@v { nop; }";
    assert_eq!(by_table(&whole, new).number(), 0);
    for length in [0, 1, 1 + 4 * ROW, TABLE - 1] {
        assert_eq!(by_table(&whole[..length], new), bad, "{length} cells");
    }
    let longer = [whole.clone(), vec![u32::MAX; 50]].concat();
    assert_eq!(by_table(&longer, new).number(), 0);
    for number in [4, 5, 64, u32::MAX] {
        assert_eq!(model::recheck(OLD.as_bytes(), &whole, number, new).said, bad, "function {number}");
    }
    for count in [0, 1, 65, u32::MAX] {
        assert_eq!(by_table(&changed(&[(0, count)]), new), bad, "{count} functions");
    }
    let padded = |length: usize| [OLD.as_bytes(), &vec![0xff; length - OLD.len()]].concat();
    assert_eq!(model::recheck(&padded(BYTES), &whole, V, new).said.number(), 0);
    assert_eq!(model::recheck(&padded(BYTES + 1), &whole, V, new).said, bad);
    // An empty text has no function to replace.
    assert_eq!(model::recheck(b"", &table(""), 0, new).said, bad);
}

/// 42 by each cell that has a range, in the replaced row and in others; and nothing by the cells that have none.
#[test]
fn cells_out_of_range() {
    let bad = refused(42, 0, 0, ": bad header table.");
    let length = OLD.len() as u32;
    let new = b"@v { nop; }";
    for row in 0..4 {
        let outside = [
            (PLACE, &[length - 1, length, BYTES as u32, BYTES as u32 + 1, u32::MAX][..]),
            (LENGTH, &[0, 1, 65, length + 1, u32::MAX]),
            (LINE, &[0, 16_386, u32::MAX]),
            (RESULT, &[0, 4, u32::MAX]),
            (TYPE, &[64, u32::MAX]),
            (BLOCKS, &[0, 257, u32::MAX]),
            (FORMALS, &[17, u32::MAX]),
        ];
        for (at, values) in outside {
            for &value in values {
                let table = changed(&[(cell(row, at), value)]);
                assert_eq!(by_table(&table, new), bad, "row {row}, cell {at}: {value}");
            }
        }
        // A formal's type has a range where the formal is one.
        for (formals, ty) in [(1, 0), (1, 3), (16, 4), (16, u32::MAX)] {
            let mut cells: Vec<(usize, u32)> = (0..16).map(|formal| (cell(row, 14 + 2 * formal), 1)).collect();
            cells.extend([(cell(row, FORMALS), formals), (cell(row, 12 + 2 * formals as usize), ty)]);
            assert_eq!(by_table(&changed(&cells), new), bad, "row {row}, formal {formals}: {ty}");
            cells.push((cell(row, FORMALS), formals - 1));
            assert_ne!(by_table(&changed(&cells), new).number(), 42, "row {row}, no formal {formals}");
        }
        let inside = [
            (PLACE, &[0, length - 2][..]),
            (LENGTH, &[2, 64]),
            (LINE, &[1, 16_385]),
            (RESULT, &[1, 2, 3]),
            (TYPE, &[0, 63]),
            (BLOCKS, &[1, 256]),
        ];
        let free = [0, 1, 2, 8, 9, 10, 13, 43].map(|at| (at, &[0, u32::MAX][..]));
        for (at, values) in inside.into_iter().chain(free) {
            for &value in values {
                let table = changed(&[(cell(row, at), value)]);
                assert_ne!(by_table(&table, new).number(), 42, "row {row}, cell {at}: {value}");
            }
        }
    }
    // All rows are looked at, and no more.
    let full = |row: u32, value: u32| {
        let mut table = changed(&[(0, 64)]);
        let first = table[1..=ROW].to_vec();
        (4..64).for_each(|row| table[cell(row, 0)..][..ROW].copy_from_slice(&first));
        table[cell(row, LINE)] = value;
        table
    };
    assert_eq!(by_table(&full(63, 1), new).number(), 0);
    assert_eq!(by_table(&full(63, 0), new), bad);
    assert_eq!(by_table(&changed(&[(cell(4, LINE), u32::MAX)]), new).number(), 0);
}

/// What a table says that check didn't write.
#[test]
fn tables_of_another_hand() {
    // The replaced row's line is where lines begin.
    let table = changed(&[(cell(V, LINE), 16_385)]);
    assert_eq!(by_table(&table, b"@v {\n}"), refused(22, 16_385, 0, ": empty block."));
    assert_eq!(by_table(&table, b"@v {\nnop }"), refused(5, 16_386, 9, "at '}': ';' expected."));
    // A function type's number is its row's.
    let table = changed(&[(cell(I, TYPE), 63), (cell(V, TYPE), 7)]);
    let said = by_table(&table, CALLS);
    assert_eq!(callees(&said), [Ty::Fn(63), Ty::Fn(7), Ty::Fn(3), Ty::Fn(2)]);
    assert!(matches!(&said, Said::Accepted { functions, .. } if functions[0].type_number == 7));
    // Of two rows of a spelling the first is called, and the replaced one is what the header is held to.
    let whole = changed(&[]);
    let named_v = [PLACE, LENGTH].map(|at| (cell(I, at), whole[cell(V, at)]));
    let table = changed(&named_v);
    assert_eq!(by_table(&table, b"@v { ret; }").number(), 0);
    assert_eq!(by_table(&table, b"@v(a: int): int { ret a; }").number(), 41);
    assert_eq!(by_table(&table, b"@v { x: int = call @v x; }").number(), 0);
    let value = "at 'call': Non-void functions must return a value.";
    assert_eq!(by_table(&table, b"@v { call @v; }"), refused(19, 2, 5, value));
    assert_eq!(by_table(&table, b"@v { x: int = call @i x; }").number(), 16);
    // A part of the old text that is no global is spelled by no callee, and kept by no header.
    let table = changed(&[(cell(V, PLACE), whole[cell(V, PLACE)] + 1)]);
    assert_eq!(by_table(&table, b"@v { ret; }").number(), 41);
    let table = changed(&[(cell(I, PLACE), whole[cell(I, PLACE)] + 1)]);
    assert_eq!(by_table(&table, b"@v { x: int = call @i x; }").number(), 16);
    // The length decides what the spelling is.
    let table = changed(&[(cell(V, LENGTH), 3)]);
    assert_eq!(by_table(&table, b"@v { ret; }").number(), 41);
}

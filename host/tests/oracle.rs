//! The oracle itself: what the Rust original says of texts whose answers are known; and the repaired one, which is there
//! for its times, against the original. Passed over, with a line that says so, where the Rust files are not to be had.
mod support;

use std::fs;
use std::path::{Path, PathBuf};
use std::process::Command;

use support::oracle::{self, Depth, Oracle, Program, RustOperation, RustSaid};
use support::{edges, fixed, texts};

fn ask(depth: Depth, texts: &[&str]) -> Option<Vec<RustSaid>> {
    let texts: Vec<Vec<u8>> = texts.iter().map(|text| text.as_bytes().to_vec()).collect();
    Oracle::start(depth).map(|mut oracle| oracle.ask(&texts))
}

fn refused(message: &str) -> RustSaid {
    RustSaid::Refused { message: message.as_bytes().to_vec() }
}

#[test]
fn refusals_have_the_rust_s_messages() {
    let texts = [
        ("$", "[line 1] Error : Unexpected token: '$'.\n"),
        ("@f { nop }", "[line 1] Error at '}': ';' expected.\n"),
        ("@f {\n x }", "[line 2] Error at '}': ':' expected.\n"),
        ("@f { print 5; }", "[line 1] Error at '5': Local identifier expected.\n"),
        ("@f { x: y }", "[line 1] Error at 'local_2': Type expected.\n"),
        ("@f { jmp .a; }", "[line 1] Error : Branch target '.a' is missing\n"),
        ("@f { nop; } @f: int { nop; }", "[line 1] Error at '@f': Unexpected type 'fn'. Expected 'fn'.\n"),
        ("@f(x: int) { x: bool = lt x x; }", "[line 1] Error at 'x': Unexpected type 'bool'. Expected 'int'.\n"),
        ("@f(x: int) { call @f; }", "[line 1] Error at 'call': 1 arguments expected, got 0\n"),
        ("@f { nop;", "[line 1] Error at end of file: Local identifier expected.\n"),
    ];
    let Some(answers) = ask(Depth::Check, &texts.map(|(text, _)| text)) else { return };
    for ((text, message), answer) in texts.iter().zip(&answers) {
        assert_eq!(answer, &refused(message), "{text}");
    }
}

#[test]
fn an_empty_block_is_a_panic() {
    let Some(answers) = ask(Depth::Check, &["@f { }", "@f { nop; .a: .b: nop; }"]) else { return };
    assert_eq!(answers, [RustSaid::Panicked, RustSaid::Panicked]);
}

#[test]
fn what_is_read_has_no_functions() {
    let texts = ["@f { x", "@f { ret; nop; }"];
    let Some(answers) = ask(Depth::Read, &texts) else { return };
    for answer in answers {
        assert!(
            matches!(answer, RustSaid::Accepted { tokens, functions, .. } if !tokens.is_empty() && functions.is_empty())
        );
    }
}

#[test]
fn an_accepted_text_has_every_field() {
    let text = "@f(a: int): int {\n .l: b: int = call @f a; br c .l .m;\n .m: ret b; }\n@g { nop; }";
    let Some(answers) = ask(Depth::Check, &[text]) else { return };
    let [RustSaid::Accepted { tokens, names, functions }] = &answers[..] else { panic!("refused: {answers:?}") };
    assert_eq!((tokens.len(), names.len(), functions.len()), (36, 7, 2));
    let variable = |name: usize, ty: &str| (name, ty.to_owned());
    let f = &functions[0];
    assert_eq!((f.name, f.line, f.ty.as_str(), f.result.as_str()), (0, 1, "fn 0", "int"));
    assert_eq!((&f.formals[..], &f.types[..]), (&[variable(1, "int")][..], &["int".to_owned()][..]));
    assert_eq!((&f.blocks[0].successors[..], &f.blocks[0].predecessors[..]), (&[0, 1][..], &[0][..]));
    assert_eq!((&f.blocks[1].successors[..], &f.blocks[1].predecessors[..]), (&[][..], &[0][..]));
    let call = RustOperation {
        kind: "call".to_owned(),
        token: ("call".to_owned(), 2),
        result: Some(variable(3, "int")),
        callee: Some(variable(0, "fn 0")),
        operands: vec![variable(1, "int")],
        labels: Vec::new(),
    };
    let branch = RustOperation {
        kind: "br".to_owned(),
        token: ("br".to_owned(), 2),
        result: None,
        callee: None,
        operands: vec![variable(4, "placeholder")],
        labels: vec![2, 5],
    };
    assert_eq!(f.blocks[0].operations, [call, branch]);
    let added = &functions[1].blocks[0].operations[1];
    assert_eq!((added.kind.as_str(), &added.token), ("ret", &("nop".to_owned(), 4)));
    assert_eq!((functions[1].ty.as_str(), functions[1].result.as_str()), ("fn 1", "void"));
}

#[test]
fn a_text_is_timed() {
    for program in [Program::Original, Program::Repaired] {
        let Some((read, check)) = oracle::time(program, b"@f { nop; }") else { return };
        assert!(read > 0 && check > 0, "{program:?}: {read} and {check} nanoseconds");
    }
}

// ---- the repaired one --------------------------------------------------------------------------------------------------

/// How many generated texts are answered by both.
const TEXTS: u64 = 2_000;

/// What is timed beside the original answers as the original does, in every field: read, the edges of every rule and limit;
/// checked, the fixed texts; and generated ones.
#[test]
fn the_repaired_program_answers_as_the_original() {
    let fixed = fixed::all().into_iter().map(|(_, text)| text).collect();
    let kinds = [(Depth::Read, [edges::edges(), edges::limits()].concat()), (Depth::Check, fixed)];
    for (depth, mut texts) in kinds {
        texts.extend(texts::generated(depth, 1, 0..TEXTS));
        let Some(mut original) = Oracle::start(depth) else { return };
        let mut repaired = Oracle::start_timed(Program::Repaired, depth).expect("the files are there");
        let answers = original.ask(&texts).into_iter().zip(repaired.ask(&texts));
        for ((original, repaired), text) in answers.zip(&texts) {
            assert!(original == repaired, "{depth:?}, {}:\n{original:?}\n{repaired:?}", text.escape_ascii());
        }
    }
}

/// The edit that repairs it finds its two places, each exactly once, or nothing is built.
#[test]
fn what_cannot_be_repaired_is_not_built() {
    let Some(source) = rust_files() else { return };
    let look = "chars().nth(self.current)";
    let lexer = fs::read_to_string(source.join(LEXER)).expect("the lexer");
    let lexers = [
        (lexer.replacen(look, "chars().nth(self.start)", 1), "stands 0 times"),
        (lexer.replacen(&format!("{look} =="), "chars().next() ==", 1), "stands 0 times"),
        (format!("{lexer}// {look}.map_or\n"), "stands 2 times"),
        (format!("{lexer}// chars()\n"), "something else counts characters"),
    ];
    for (number, (text, says)) in lexers.iter().enumerate() {
        let folder = Path::new(env!("CARGO_TARGET_TMPDIR")).join(format!("unrepaired-{number}"));
        let copy = folder.join("src");
        for file in ["utils/src/lib.rs", "analysis/src/cfg.rs", "bril-lib/src/ir.rs", "bril-lib/src/parser.rs", LEXER] {
            fs::create_dir_all(copy.join(file).parent().expect("a folder")).expect("a folder");
            let text =
                if file == LEXER { text.clone().into_bytes() } else { fs::read(source.join(file)).expect("a file") };
            fs::write(copy.join(file), text).expect("a file");
        }
        let mut script = Command::new(oracle::script());
        let script = script.args(["--timed", "--repaired"]).arg(folder.join("build")).env("PITCHSLEET_RUST_SRC", copy);
        let ended = script.output().expect("oracle/build.sh runs");
        let said = String::from_utf8_lossy(&ended.stderr);
        assert!(!ended.status.success() && ended.stdout.is_empty(), "it was built: {said}");
        assert!(said.contains(says), "{says}: {said}");
        fs::remove_dir_all(folder).expect("the copy goes");
    }
}

const LEXER: &str = "bril-lib/src/lexer.rs";

/// The folder of the Rust files, as oracle/build.sh finds it.
fn rust_files() -> Option<PathBuf> {
    let root = Path::new(env!("CARGO_MANIFEST_DIR")).join("..");
    let named = std::env::var_os("PITCHSLEET_RUST_SRC").filter(|name| !name.is_empty());
    let folder = root.join(named.unwrap_or_else(|| "../shared/docs/src".into()));
    folder.is_dir().then_some(folder)
}

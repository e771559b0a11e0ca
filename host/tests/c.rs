//! The C functions as a C host has them: include/pitchsleet.h as C and as C++, examples/walk.c, and all six functions called
//! from C; and what the archive needs from outside. Where the machine has no compiler or no nm for them, a line says so.
mod support;

#[path = "c/compiler.rs"]
mod compiler;

use std::collections::BTreeSet;
use std::fs;
use std::io::{self, Write};
use std::path::{Path, PathBuf};
use std::process::{Command, Output};

use compiler::{Compiler, root};
use pitchsleet::Reader;
use pitchsleet::raw::{self, CheckAnswer, ReadAnswer};
use support::{edges, edits, fixed, rules};

const TOOL: &str = env!("CARGO_BIN_EXE_pitchsleet");

/// An empty folder for a test.
fn folder(name: &str) -> PathBuf {
    let folder = Path::new(env!("CARGO_TARGET_TMPDIR")).join(name);
    let _ = fs::remove_dir_all(&folder);
    fs::create_dir_all(&folder).expect("a folder");
    folder
}

fn written(folder: &Path, name: &str, text: &[u8]) -> PathBuf {
    let file = folder.join(name);
    fs::write(&file, text).expect("a file");
    file
}

fn run(program: &Path, words: &[&Path]) -> Output {
    Command::new(program).args(words).output().expect("the program runs")
}

fn lines(output: &Output) -> &str {
    str::from_utf8(&output.stdout).expect("ASCII")
}

#[test]
fn the_header_is_c99_and_cpp() {
    let source = root().join("host/tests/c/header.c");
    for standard in ["-std=c99", "-std=c11"] {
        let Some(compiler) = Compiler::of_c() else { return };
        let program = compiler.program(&[standard], &source, &format!("header{standard}"));
        assert!(run(&program, &[]).status.success(), "{standard}");
    }
    for standard in ["-std=c++98", "-std=c++17"] {
        let Some(compiler) = Compiler::of_cpp() else { return };
        let program = compiler.program(&[standard, "-xc++"], &source, &format!("header{standard}"));
        assert!(run(&program, &[]).status.success(), "{standard}");
    }
}

/// Of the C library the archive needs what docs/PACKAGE.md says, and nothing else.
#[test]
fn what_the_archive_needs() {
    let archive = root().join("target/staticlib/libpitchsleet.a");
    let read = |name| Command::new(name).arg("-u").arg(&archive).output().ok().filter(|output| output.status.success());
    let Some(output) = ["nm", "x86_64-linux-gnu-nm"].into_iter().find_map(read) else {
        writeln!(io::stderr(), "c: passed over: there is no nm that reads the archive").expect("standard error");
        return;
    };
    let needed: BTreeSet<&str> = lines(&output).lines().filter_map(|line| line.trim().strip_prefix("U ")).collect();
    assert_eq!(needed, BTreeSet::from(["memcpy", "memset"]));
}

/// Every kind of operation, every word, and blocks of each sort.
const EVERY_KIND: &str = "
@g(a: int, b: bool): int { ret a; }
@h { nop; }
@f(n: int, c: bool): bool {
.top: .first:
  i: int = const -2147483648; t: bool = const true; u: bool = const false;
  i: int = add n n; i: int = mul i n; i: int = sub i n; i: int = div i n; i: int = mod i n;
  t: bool = eq i n; t: bool = lt i n; t: bool = gt i n; t: bool = le i n; t: bool = ge i n;
  u: bool = and t u; u: bool = or t u; u: bool = not u; i: int = id i;
  i: int = call @g i u; call @h; print i; nop;
  br u .first .last;
.dead:
  jmp .dead_too;
.dead_too:
  br c .last .last;
.last:
  ret t;
}";

/// Texts for walk: the examples, document 01's, the least ones of each rule, some of all, and what is special of a message.
fn texts() -> Vec<Vec<u8>> {
    let examples = ["frost.bril", "frost-refused.bril", "colder.bril"];
    let examples = examples.map(|name| fs::read(root().join("examples").join(name)).expect("an example"));
    let rules = rules::LEXING.iter().chain(&rules::RULES).flat_map(|(_, texts)| *texts);
    let rules = edges::DOCUMENT_01.iter().chain(rules).chain(&[EVERY_KIND]).map(|text| text.as_bytes().to_vec());
    let some = fixed::all().into_iter().step_by(9).map(|(_, text)| text);
    let special = [&b"@f { \0 }"[..], b"\x1b", b"\x80", &[b' '; raw::TEXT_BYTES], &[b' '; raw::TEXT_BYTES + 7]];
    examples.into_iter().chain(rules).chain(some).chain(special.map(<[u8]>::to_vec)).collect()
}

/// What walk prints is, of an accepted text, byte for byte what the tool lists by the crate, and of a refused one what the
/// crate's refusal says.
#[test]
fn walk_says_what_the_crate_does() {
    let Some(compiler) = Compiler::of_c() else { return };
    let walk = compiler.program(&["-std=c99"], &root().join("examples/walk.c"), "walk");
    let folder = folder("walked");
    let mut reader = Reader::new();
    assert!(reader.check(EVERY_KIND.as_bytes()).is_ok());
    let (mut accepted, mut refused) = (0, 0);
    for text in texts() {
        let file = written(&folder, "text.bril", &text);
        let by_cells = run(&walk, &[&file]);
        let by_bytes = run(&walk, &["--bytes".as_ref(), &file]);
        assert_eq!(by_cells, by_bytes);
        assert!(by_cells.stderr.is_empty());
        match reader.check(&text) {
            Ok(_) => {
                let tool = run(TOOL.as_ref(), &["check".as_ref(), &file]);
                assert_eq!((lines(&by_cells), by_cells.status.code()), (lines(&tool), Some(0)));
                accepted += 1;
            }
            Err(refusal) => {
                let expected = format!("{}: {refusal}\n", file.display());
                assert_eq!((lines(&by_cells), by_cells.status.code()), (expected.as_str(), Some(1)));
                refused += 1;
            }
        }
    }
    assert!(accepted > 40 && refused > 150, "{accepted} accepted, {refused} refused");
}

#[test]
fn walk_that_can_t_be_run() {
    let Some(compiler) = Compiler::of_c() else { return };
    let walk = compiler.program(&["-std=c99"], &root().join("examples/walk.c"), "walk-usage");
    let file = written(&folder("walk-usage-texts"), "x.bril", b"@f { nop; }");
    let calls: [&[&Path]; 6] = [
        &[],
        &["--bytes".as_ref()],
        &["--bits".as_ref(), &file],
        &[&file, &file],
        &["--bytes".as_ref(), &file, &file],
        &["no/such/file".as_ref()],
    ];
    for words in calls {
        let output = run(&walk, words);
        assert_eq!((output.status.code(), lines(&output)), (Some(2), ""), "{words:?}");
        assert!(!output.stderr.is_empty(), "{words:?}");
    }
}

/// What calls.c prints of an answer.
fn line(name: &str, answer: CheckAnswer) -> String {
    let CheckAnswer { number, line, place, tokens, names, functions, items, arguments, blocks, predecessors } = answer;
    let numbers = [number, line, place, tokens, names, functions, items, arguments, blocks, predecessors];
    numbers.iter().fold(name.to_owned(), |line, number| format!("{line} {number}"))
}

/// Each of the six functions, by the word that calls.c and the document have for it, and the stack that it needs less than.
fn stacks() -> [(&'static str, usize); 6] {
    let document = fs::read_to_string(root().join("docs/INTERFACE.md")).expect("the document");
    let stack = |before: &str| -> usize {
        let rest = document.split(&format!("{before} needs less than ")).nth(1);
        let number = rest.and_then(|rest| rest.split(" KiB").next()).and_then(|number| number.parse().ok());
        number.unwrap_or_else(|| panic!("the document doesn't say what {before} needs"))
    };
    [
        ("read_cells", "On cells a call of read"),
        ("check_cells", "On cells a call of check"),
        ("recheck_cells", "On cells a call of recheck"),
        ("read", "A call of read"),
        ("check", "A call of check"),
        ("recheck", "A call of recheck"),
    ]
    .map(|(name, before)| (name, stack(before)))
}

/// Calls all six functions from C on new texts, and holds what comes back to the crate's answers and the document's stacks.
fn assert_calls(calls: &Path, folder: &Path, old: &[u8], number: u32, news: &[Vec<u8>]) -> Vec<usize> {
    let old_file = written(folder, "old.bril", old);
    let new_files = news.iter().enumerate();
    let new_files: Vec<PathBuf> = new_files.map(|(i, new)| written(folder, &format!("{i}.bril"), new)).collect();
    let output = Command::new(calls).arg(&old_file).arg(number.to_string()).args(&new_files).output();
    let output = output.expect("calls runs");
    let said = lines(&output);
    assert_eq!(output.status.code(), Some(0), "{said}");

    let (mut out, mut message) = (vec![0; raw::CHECK_OUT_BYTES], [0; raw::MESSAGE_BYTES]);
    raw::check(old, &mut out, &mut message);
    let table = out[raw::FUNCTIONS_OFFSET..][..raw::TABLE_BYTES].to_vec();
    let mut said = said.lines();
    for new in news {
        // A text that is too long is cut by calls.c, and still too long.
        let ReadAnswer { number: refused, line: at, place, tokens, names } = raw::read(new, &mut out, &mut message);
        let read = CheckAnswer { number: refused, line: at, place, tokens, names, ..CheckAnswer::default() };
        assert_eq!(said.next(), Some(line("read", read).as_str()));
        let check = raw::check(new, &mut out, &mut message);
        assert_eq!(said.next(), Some(line("check", check).as_str()));
        let recheck = raw::recheck(old, &table, number, new, &mut out, &mut message);
        assert_eq!(said.next(), Some(line("recheck", recheck).as_str()));
    }
    let used = stacks().map(|(name, bound)| {
        let used = said.next().and_then(|line| line.strip_prefix(&format!("stack of {name}: ")));
        let used: usize = used.and_then(|used| used.parse().ok()).expect("a number of bytes");
        assert!(used < bound * 1024, "{name} took {used} bytes, and the document says less than {bound} KiB");
        used
    });
    used.to_vec()
}

/// On every fixed text of check, on a refusal of the highest line, and on generated edits.
#[test]
fn all_six_functions_from_c() {
    let Some(compiler) = Compiler::of_c() else { return };
    let calls = compiler.program(&["-std=c99", "-pthread"], &root().join("host/tests/c/calls.c"), "calls");
    let folder = folder("called");
    let far = [vec![b'\n'; raw::TEXT_BYTES - 1], b"$".to_vec()].concat();
    let texts: Vec<Vec<u8>> = fixed::all().into_iter().map(|(_, text)| text).chain([far]).collect();
    let mut most = assert_calls(&calls, &folder, b"@f { nop; }", 0, &texts);
    for edit in edits::generated(20261116, 0..60) {
        let used = assert_calls(&calls, &folder, &edit.old, edit.number as u32, &[edit.new]);
        most.iter_mut().zip(used).for_each(|(most, used)| *most = used.max(*most));
    }
    for ((name, bound), most) in stacks().iter().zip(most) {
        writeln!(io::stderr(), "c: {name}: {most} bytes of stack at most, of {bound} KiB").expect("standard error");
    }
}

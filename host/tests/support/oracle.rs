//! The Rust original as a process: texts go in by a stream, answers come back, a batch at a time.
use std::io::{BufRead, BufReader, BufWriter, Write};
use std::path::{Path, PathBuf};
use std::process::{Child, ChildStdin, ChildStdout, Command, Stdio};
use std::sync::OnceLock;
use std::thread;

use super::json::Json;

/// How far a text is taken.
#[derive(Clone, Copy, Debug, PartialEq, Eq)]
pub enum Depth {
    Read,
    Check,
}

/// Which program is asked.
#[derive(Clone, Copy, Debug, PartialEq, Eq)]
pub enum Program {
    /// The Rust original, unchanged.
    Original,
    /// The same, but for the lexer's look at a character, which doesn't count from the text's first one: for times, and
    /// built for them.
    Repaired,
}

/// What the Rust says of a text. It knows no numbers and no places.
#[derive(Debug, PartialEq, Eq)]
pub enum RustSaid {
    Refused {
        message: Vec<u8>,
    },
    /// Where a text is read and no more, there are no functions.
    Accepted {
        tokens: Vec<RustToken>,
        names: Vec<String>,
        functions: Vec<RustFunction>,
    },
    /// Without a message: the parser's panic on an empty block.
    Panicked,
}

#[derive(Debug, PartialEq, Eq)]
pub struct RustToken {
    pub kind: String,
    pub value: Option<i64>,
    pub line: i64,
}

/// A name and its type's word.
pub type RustVariable = (usize, String);

#[derive(Debug, PartialEq, Eq)]
pub struct RustFunction {
    pub name: usize,
    pub line: u32,
    pub ty: String,
    pub result: String,
    pub types: Vec<String>,
    pub formals: Vec<RustVariable>,
    pub blocks: Vec<RustBlock>,
}

#[derive(Debug, PartialEq, Eq)]
pub struct RustBlock {
    pub successors: Vec<usize>,
    pub predecessors: Vec<usize>,
    pub operations: Vec<RustOperation>,
}

#[derive(Debug, PartialEq, Eq)]
pub struct RustOperation {
    pub kind: String,
    /// How the token is shown, and its line.
    pub token: (String, u32),
    pub result: Option<RustVariable>,
    pub callee: Option<RustVariable>,
    pub operands: Vec<RustVariable>,
    pub labels: Vec<usize>,
}

pub struct Oracle {
    process: Child,
    /// None once it is closed, which ends the process.
    input: Option<ChildStdin>,
    output: BufReader<ChildStdout>,
}

impl Oracle {
    /// The process; none where the Rust files are not to be had, of which the build has said so.
    pub fn start(depth: Depth) -> Option<Self> {
        static ORIGINAL: OnceLock<Option<PathBuf>> = OnceLock::new();
        Some(Self::run(ORIGINAL.get_or_init(|| build(&[])).as_deref()?, depth))
    }

    /// The same of the program that is timed.
    pub fn start_timed(program: Program, depth: Depth) -> Option<Self> {
        Some(Self::run(timed(program)?, depth))
    }

    fn run(program: &Path, depth: Depth) -> Self {
        let mut process = Command::new(program)
            .args((depth == Depth::Read).then_some("--read"))
            .stdin(Stdio::piped())
            .stdout(Stdio::piped())
            .spawn()
            .expect("the oracle runs");
        let input = process.stdin.take();
        let output = BufReader::new(process.stdout.take().expect("it is piped"));
        Self { process, input, output }
    }

    /// The answers to texts, in their order.
    pub fn ask(&mut self, texts: &[Vec<u8>]) -> Vec<RustSaid> {
        let input = self.input.as_mut().expect("open while it lives");
        let output = &mut self.output;
        // The process answers while it is still being asked: with one thread both would wait for the other to read.
        thread::scope(|scope| {
            scope.spawn(move || send(input, texts));
            texts.iter().map(|_| answer(output)).collect()
        })
    }
}

impl Drop for Oracle {
    fn drop(&mut self) {
        self.input = None;
        let ended = self.process.wait();
        if !thread::panicking() {
            assert!(ended.expect("the oracle ends").success(), "the oracle failed");
        }
    }
}

fn send(input: &mut ChildStdin, texts: &[Vec<u8>]) {
    let mut input = BufWriter::new(input);
    for text in texts {
        writeln!(input, "{}", text.len()).expect("the oracle listens");
        input.write_all(text).expect("the oracle listens");
    }
    input.flush().expect("the oracle listens");
}

fn answer(output: &mut impl BufRead) -> RustSaid {
    let mut line = String::new();
    output.read_line(&mut line).expect("the oracle answers");
    decode(&Json::parse(line.trim_end()))
}

fn decode(line: &Json) -> RustSaid {
    let stage = line.get("stage").map(Json::text);
    let message = line.get("message").map(Json::bytes).unwrap_or_default();
    match (line.get("panic").is_some(), stage) {
        (true, _) if message.is_empty() => RustSaid::Panicked,
        (false, Some("lex" | "parse")) => RustSaid::Refused { message },
        (false, Some("read" | "accepted")) => RustSaid::Accepted {
            tokens: field(line, "tokens").iter().map(token).collect(),
            names: texts(field(line, "names")),
            functions: line.get("functions").map_or(Vec::new(), |all| all.list().iter().map(function).collect()),
        },
        _ => panic!("the Rust answers as it never does: {line:?}"),
    }
}

fn field<'a>(object: &'a Json, key: &str) -> &'a [Json] {
    object.get(key).unwrap_or_else(|| panic!("no {key}: {object:?}")).list()
}

fn texts(list: &[Json]) -> Vec<String> {
    list.iter().map(|text| text.text().to_owned()).collect()
}

fn numbers(list: &[Json]) -> Vec<usize> {
    list.iter().map(|number| number.number() as usize).collect()
}

fn word(object: &Json, key: &str) -> String {
    object.get(key).expect("a word").text().to_owned()
}

fn function(function: &Json) -> RustFunction {
    let number = |key: &str| function.get(key).expect("a number").number();
    RustFunction {
        name: number("name") as usize,
        line: number("line") as u32,
        ty: word(function, "fn"),
        result: word(function, "ret"),
        types: texts(field(function, "types")),
        formals: field(function, "formals").iter().map(variable).collect(),
        blocks: field(function, "blocks").iter().map(block).collect(),
    }
}

fn block(block: &Json) -> RustBlock {
    RustBlock {
        successors: numbers(field(block, "succs")),
        predecessors: numbers(field(block, "preds")),
        operations: field(block, "ops").iter().map(operation).collect(),
    }
}

fn operation(operation: &Json) -> RustOperation {
    let [token, line] = field(operation, "token") else { panic!("no token: {operation:?}") };
    let optional = |key: &str| operation.get(key).filter(|value| **value != Json::Null).map(variable);
    RustOperation {
        kind: word(operation, "kind"),
        token: (token.text().to_owned(), line.number() as u32),
        result: optional("result"),
        callee: optional("callee"),
        operands: field(operation, "operands").iter().map(variable).collect(),
        labels: numbers(field(operation, "labels")),
    }
}

fn variable(variable: &Json) -> RustVariable {
    let [name, ty] = variable.list() else { panic!("no variable: {variable:?}") };
    (name.number() as usize, ty.text().to_owned())
}

fn token(token: &Json) -> RustToken {
    let [kind, value, line] = token.list() else { panic!("no token: {token:?}") };
    RustToken {
        kind: kind.text().to_owned(),
        value: (*value != Json::Null).then(|| value.number()),
        line: line.number(),
    }
}

/// How long the Rust takes for a text that is read, and for one that is checked, in nanoseconds; none where the Rust files
/// are not to be had.
pub fn time(program: Program, text: &[u8]) -> Option<(u64, u64)> {
    let mut process = Command::new(timed(program)?)
        .arg("--time")
        .stdin(Stdio::piped())
        .stdout(Stdio::piped())
        .spawn()
        .expect("the oracle runs");
    send(&mut process.stdin.take().expect("it is piped"), &[text.to_vec()]);
    let output = process.wait_with_output().expect("the oracle ends");
    let line = Json::parse(str::from_utf8(&output.stdout).expect("ASCII").trim_end());
    let nanoseconds = |key: &str| line.get(key).expect("a time").number() as u64;
    Some((nanoseconds("read_ns"), nanoseconds("check_ns")))
}

/// A program as it is timed, built by oracle/build.sh once in a run of tests.
fn timed(program: Program) -> Option<&'static Path> {
    static ORIGINAL: OnceLock<Option<PathBuf>> = OnceLock::new();
    static REPAIRED: OnceLock<Option<PathBuf>> = OnceLock::new();
    let built = match program {
        Program::Original => ORIGINAL.get_or_init(|| build(&["--timed"])),
        Program::Repaired => REPAIRED.get_or_init(|| build(&["--timed", "--repaired"])),
    };
    built.as_deref()
}

/// The script that builds them.
pub fn script() -> PathBuf {
    Path::new(env!("CARGO_MANIFEST_DIR")).join("../oracle/build.sh")
}

fn build(words: &[&str]) -> Option<PathBuf> {
    let built = Command::new(script()).args(words).stderr(Stdio::inherit()).output().expect("oracle/build.sh runs");
    assert!(built.status.success(), "oracle/build.sh failed");
    let path = String::from_utf8(built.stdout).expect("a path");
    let path = path.trim_end();
    (!path.is_empty()).then(|| PathBuf::from(path))
}

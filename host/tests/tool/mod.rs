//! Runs of the command-line tool: for the tests of it alone, since the name of its file is known to them alone.
#![allow(dead_code, reason = "each test uses a part")]
use std::fs;
use std::io::Write;
use std::path::PathBuf;
use std::process::{Command, Output, Stdio};
use std::thread;

pub const TOOL: &str = env!("CARGO_BIN_EXE_pitchsleet");

/// A run with something on standard input.
pub fn run(words: &[&str], input: &[u8]) -> Output {
    let mut process = Command::new(TOOL)
        .args(words)
        .stdin(Stdio::piped())
        .stdout(Stdio::piped())
        .stderr(Stdio::piped())
        .spawn()
        .expect("the tool runs");
    let mut stdin = process.stdin.take().expect("it is piped");
    thread::scope(|scope| {
        // A tool that has seen enough closes its input: that is no mistake of the test's.
        scope.spawn(move || drop(stdin.write_all(input)));
        process.wait_with_output().expect("the tool ends")
    })
}

pub fn status(output: &Output) -> i32 {
    output.status.code().expect("no signal")
}

pub fn out(output: &Output) -> &str {
    str::from_utf8(&output.stdout).expect("UTF-8")
}

pub fn err(output: &Output) -> &str {
    str::from_utf8(&output.stderr).expect("UTF-8")
}

/// The whole output for a text on standard input, which must end with a status and say nothing on standard error.
pub fn answer(words: &[&str], text: &[u8], expected_status: i32) -> String {
    let output = run(words, text);
    assert_eq!((status(&output), err(&output)), (expected_status, ""));
    out(&output).to_owned()
}

/// The same of a text that is warned of: what is said on standard output, and on standard error.
pub fn warned(words: &[&str], text: &[u8], expected_status: i32) -> (String, String) {
    let output = run(words, text);
    assert_eq!(status(&output), expected_status);
    (out(&output).to_owned(), err(&output).to_owned())
}

/// A file for one test, removed when it ends.
pub struct Scratch(PathBuf);

impl Scratch {
    pub fn new(name: &str, text: &[u8]) -> Self {
        let path = PathBuf::from(env!("CARGO_TARGET_TMPDIR")).join(name);
        fs::write(&path, text).expect("a scratch file");
        Self(path)
    }

    pub fn name(&self) -> &str {
        self.0.to_str().expect("ASCII")
    }
}

impl Drop for Scratch {
    fn drop(&mut self) {
        let _ = fs::remove_file(&self.0);
    }
}

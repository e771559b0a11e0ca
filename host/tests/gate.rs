//! The gate, .ci/run, in a folder with an `rt` that says what it is told to and a `cargo` that only writes down its calls: what it
//! ends with, and what it does before.
mod outside;

use std::fs;
use std::os::unix::fs::PermissionsExt;
use std::path::{Path, PathBuf};
use std::process::{Command, Output};

use outside::Outside;

const ALL: &str = "rt: utils proved
rt: ok; handles allowed: none; must-fail edits: 63 refused; every proof and must-fail edit was done in this run
91 passed, 0 failed
";

struct Gate {
    root: Outside,
}

impl Gate {
    fn new(name: &str) -> Self {
        let gate = Self { root: Outside::new(&format!("gate-{name}")) };
        for name in [".ci/run", ".ci/x86-64", "tools/archive"] {
            let to = gate.folder(name);
            fs::copy(Path::new(env!("CARGO_MANIFEST_DIR")).join("..").join(name), to).expect("a copy");
        }
        for name in ["crates/pitchsleet/src/lib.rt", "crates.txt", "host/Cargo.toml"] {
            fs::write(gate.folder(name), "").expect("a file");
        }
        let lib = "mkdir -p out; echo archive > out/libpitchsleet.a";
        gate.program(
            "rt",
            &format!("[ \"$1\" != lib ] || {{ {lib}; exit; }}\ncat \"$root/says\"\nexit $(cat \"$root/status\")"),
        );
        gate.program("cargo", "exit $(cat \"$root/cargo-$1\" 2> /dev/null || echo 0)");
        gate
    }

    fn path(&self, name: &str) -> PathBuf {
        self.root.path().join(name)
    }

    /// A file's path, with its folder made.
    fn folder(&self, name: &str) -> PathBuf {
        let file = self.path(name);
        fs::create_dir_all(file.parent().expect("a folder")).expect("a folder");
        file
    }

    /// A program in front of the PATH, which writes down each call.
    fn program(&self, name: &str, words: &str) {
        let file = self.folder(&format!("bin/{name}"));
        let root = self.root.path().display();
        fs::write(&file, format!("#!/bin/sh\nroot='{root}'\necho \"{name} $*\" >> \"$root/calls\"\n{words}\n"))
            .expect("a file");
        fs::set_permissions(&file, fs::Permissions::from_mode(0o755)).expect("its mode");
    }

    /// A run in which `rt ci` says this and ends so.
    fn run(&self, says: &str, status: i32) -> Output {
        fs::write(self.path("says"), says).expect("a file");
        fs::write(self.path("status"), status.to_string()).expect("a file");
        let path = std::env::var_os("PATH").expect("a PATH");
        let paths = [self.path("bin")].into_iter().chain(std::env::split_paths(&path));
        let path = std::env::join_paths(paths).expect("a PATH");
        Command::new(self.path(".ci/run")).current_dir("/").env("PATH", path).output().expect("it runs")
    }

    /// The calls of rt and cargo since the last look.
    fn calls(&self) -> String {
        let calls = fs::read_to_string(self.path("calls")).unwrap_or_default();
        let _ = fs::remove_file(self.path("calls"));
        calls
    }
}

fn out(output: &Output) -> &str {
    str::from_utf8(&output.stdout).expect("UTF-8")
}

/// rt ci first, as it is; its own last line last of all.
#[test]
fn all_is_well() {
    let gate = Gate::new("well");
    let output = gate.run(ALL, 0);
    assert!(output.status.success(), "{output:?}");
    assert!(out(&output).starts_with("rt: utils proved\n") && out(&output).ends_with("\n91 passed, 0 failed\n"));
    assert_eq!(out(&output).matches("91 passed").count(), 1);
    let calls = gate.calls();
    assert!(calls.starts_with("rt ci\nrt lib\ncargo "), "{calls}");
    for call in ["cargo doc --offline", "cargo clippy --offline"] {
        assert!(calls.contains(call), "{calls}");
    }
    // The archive is made again, whatever is there.
    assert!(gate.run(ALL, 0).status.success());
    assert!(gate.calls().contains("rt lib\n"));
}

#[test]
fn what_rt_ci_fails_fails() {
    let gate = Gate::new("fails");
    for (says, status) in [("rt: FAILED: utils\n90 passed, 1 failed\n", 1), ("0 passed, 1 failed\n", 2), (ALL, 3)] {
        let output = gate.run(says, status);
        assert_eq!((output.status.code(), out(&output)), (Some(status), says));
        assert_eq!(gate.calls(), "rt ci\n");
    }
}

/// An edit that is bad shows nothing, and rt ci passes all the same.
#[test]
fn bad_edits_fail() {
    let gate = Gate::new("bad");
    for (edits, passes) in [
        ("must-fail edits: 63 refused; ", true),
        ("must-fail edits: 63 refused, 2 of them only by a limit; ", true),
        ("must-fail edits: 63 refused, 0 bad; ", true),
        ("must-fail edits: 62 refused, 1 bad; ", false),
        ("must-fail edits: 50 refused, 2 of them only by a limit, 13 bad; ", false),
        ("must-fail edits: 0 refused, 63 bad; ", false),
        // Nothing is said of them.
        ("", false),
    ] {
        let says =
            format!("rt: ok; handles allowed: none; {edits}every proof was done in this run\n91 passed, 0 failed\n");
        let output = gate.run(&says, 0);
        assert_eq!(output.status.code(), Some(i32::from(!passes)), "{edits}{output:?}");
        assert_eq!(out(&output).contains("91 passed, 0 failed"), passes, "{edits}");
        assert_eq!(gate.calls().contains("cargo"), passes, "{edits}");
    }
    let output = gate.run("91 passed, 0 failed\n", 0);
    assert_eq!(output.status.code(), Some(1), "there is no such line");
}

/// And what cargo refuses, without the line that all is well.
#[test]
fn what_cargo_fails_fails() {
    let gate = Gate::new("cargo");
    fs::write(gate.path("cargo-doc"), "101").expect("a file");
    let output = gate.run(ALL, 0);
    assert_eq!(output.status.code(), Some(101), "{output:?}");
    assert!(!out(&output).contains("91 passed"));
}

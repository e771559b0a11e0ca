//! `./pitchsleet` at the repository's root: it works from any folder, and starts at once when all is built.
mod outside;

use std::ffi::OsString;
use std::fs;
use std::os::unix::fs::{PermissionsExt, symlink};
use std::path::{Path, PathBuf};
use std::process::{Command, Output};

use outside::Outside;

fn script() -> PathBuf {
    Path::new(env!("CARGO_MANIFEST_DIR")).join("../pitchsleet")
}

fn run(program: &Path, folder: &Path, words: &[&str], path: &OsString) -> Output {
    let output = Command::new(program).args(words).current_dir(folder).env("PATH", path).output();
    output.expect("./pitchsleet runs")
}

/// The PATH, with programs in front of it that must not be called.
fn path_without(programs: &[&str], folder: &Path) -> OsString {
    for program in programs {
        let file = folder.join(program);
        fs::write(&file, "#!/bin/sh\necho called >&2\nexit 1\n").expect("a file");
        fs::set_permissions(&file, fs::Permissions::from_mode(0o755)).expect("its mode");
    }
    let path = std::env::var_os("PATH").expect("a PATH");
    let paths = [folder.to_path_buf()].into_iter().chain(std::env::split_paths(&path));
    std::env::join_paths(paths).expect("a PATH")
}

#[test]
fn it_works_from_any_folder_and_starts_at_once() {
    let path = std::env::var_os("PATH").expect("a PATH");
    let outside = Outside::new("script");
    let folder = outside.path();
    fs::write(folder.join("rule.bril"), "@f { nop; }").expect("a file");
    fs::write(folder.join("bad.bril"), "@f { $ }").expect("a file");

    let first = run(&script(), folder, &["read", "rule.bril"], &path);
    assert!(first.status.success(), "{}", String::from_utf8_lossy(&first.stderr));
    assert!(first.stdout.ends_with(b"rule.bril: accepted: 6 tokens, 1 name\n"));
    let checked = run(&script(), folder, &["check", "rule.bril"], &path);
    assert!(checked.stdout.ends_with(b"rule.bril: accepted: 1 function, 1 block, 2 operations\n"));

    let link = folder.join("linked");
    symlink(script(), &link).expect("a link");
    let nothing_to_build = path_without(&["cargo", "rt"], folder);
    for program in [script(), link] {
        let later = run(&program, folder, &["read", "bad.bril"], &nothing_to_build);
        assert_eq!((later.status.code(), &later.stderr[..]), (Some(1), &b""[..]));
        assert!(later.stdout.starts_with(b"bad.bril:1:6: refused 3: [line 1] Error : Unexpected token: '$'.\n"));
    }
}

//! `./package` at the repository's root: what is packed is whole, works by itself, and is the same bytes each time.
use std::fs;
use std::io::{self, Write};
use std::path::{Path, PathBuf};
use std::process::{Command, Output};

/// What is in it, below its one folder.
const FILES: [&str; 13] = [
    "LICENSE", "NOTICE", "README.md", "SHA256SUMS", "bin/pitchsleet", "docs/INTERFACE.md", "examples/colder.bril",
    "examples/frost-refused.bril", "examples/frost-warned.bril", "examples/frost.bril", "examples/walk.c",
    "include/pitchsleet.h", "lib/libpitchsleet.a",
];

/// The repository's root.
fn root() -> PathBuf {
    Path::new(env!("CARGO_MANIFEST_DIR")).parent().expect("host/ is in the repository").to_path_buf()
}

/// A run of a shell's words in a folder.
fn sh(folder: &Path, words: &str) -> Output {
    let output = Command::new("sh").args(["-c", words]).current_dir(folder).env("TZ", "UTC").output();
    output.expect("a shell runs")
}

/// What it prints, where it must go well.
fn out(folder: &Path, words: &str) -> String {
    let output = sh(folder, words);
    assert!(output.status.success(), "{words}: {}", String::from_utf8_lossy(&output.stderr));
    String::from_utf8(output.stdout).expect("UTF-8")
}

/// The package's file, made by these words.
fn packed(words: &str) -> PathBuf {
    PathBuf::from(out(&root(), words).trim_end())
}

fn unpacked(package: &Path) -> PathBuf {
    let folder = Path::new(env!("CARGO_TARGET_TMPDIR")).join("unpacked");
    let _ = fs::remove_dir_all(&folder);
    fs::create_dir_all(&folder).expect("a folder");
    out(&folder, &format!("tar -xzf '{}'", package.display()));
    folder.join(name())
}

fn name() -> String {
    format!("pitchsleet-{}-x86_64-linux", env!("CARGO_PKG_VERSION"))
}

#[test]
fn a_package() {
    let package = packed("./package");
    assert_eq!(package, root().join("target").join(name() + ".tar.gz"));
    is_the_same_each_time(&package);
    let folder = unpacked(&package);
    is_whole(&folder);
    works_by_itself(&folder);
}

/// From another folder, with another mask of modes, by another clock and language.
fn is_the_same_each_time(package: &Path) {
    let first = fs::read(package).expect("a package");
    let again = packed("root=$(pwd); cd /; umask 077; TZ=Asia/Tokyo LC_ALL=C.UTF-8 \"$root/package\"");
    assert_eq!(again, package);
    assert!(fs::read(package).expect("a package") == first, "two packages of the same things differ");

    let beside = format!("sha256sum -c '{}.sha256'", name() + ".tar.gz");
    assert_eq!(out(&root().join("target"), &beside), format!("{}.tar.gz: OK\n", name()));

    let listed = out(&root(), &format!("tar --numeric-owner -tvzf '{}'", package.display()));
    let lines: Vec<Vec<&str>> = listed.lines().map(|line| line.split_whitespace().collect()).collect();
    for line in &lines {
        let mode = match line[5] {
            name if name.ends_with('/') => "drwxr-xr-x",
            name if name.ends_with("bin/pitchsleet") => "-rwxr-xr-x",
            _ => "-rw-r--r--",
        };
        assert_eq!((line[0], line[1], line[3], line[4]), (mode, "0/0", "2026-01-01", "00:00"), "{}", line[5]);
    }
    let names = lines.iter().map(|line| line[5]).filter(|name| !name.ends_with('/'));
    let names: Vec<&str> = names.filter_map(|path| path.strip_prefix(&name())?.strip_prefix('/')).collect();
    assert_eq!(names, FILES, "sorted");

    let other = packed("SOURCE_DATE_EPOCH=1000000000 ./package");
    assert!(out(&root(), &format!("tar -tvzf '{}'", other.display())).contains(" 2001-09-09 "));
    packed("./package");
}

/// Its checksums are of all files, and each is what the repository has.
fn is_whole(folder: &Path) {
    let sums = fs::read_to_string(folder.join("SHA256SUMS")).expect("the checksums");
    let summed: Vec<&str> = sums.lines().filter_map(|line| line.split("  ").nth(1)).collect();
    let expected: Vec<&str> = FILES.into_iter().filter(|name| *name != "SHA256SUMS").collect();
    assert_eq!(summed, expected);
    out(folder, "sha256sum -c SHA256SUMS");
    for (packed, of_repository) in [
        ("LICENSE", "LICENSE"),
        ("NOTICE", "NOTICE"),
        ("README.md", "docs/PACKAGE.md"),
        ("docs/INTERFACE.md", "docs/INTERFACE.md"),
        ("include/pitchsleet.h", "include/pitchsleet.h"),
        ("lib/libpitchsleet.a", "target/staticlib/libpitchsleet.a"),
        ("examples/walk.c", "examples/walk.c"),
        ("examples/frost.bril", "examples/frost.bril"),
    ] {
        assert!(fs::read(folder.join(packed)).ok() == fs::read(root().join(of_repository)).ok(), "{packed} differs");
    }
}

/// Every command of its README goes well in its folder; those of C are passed over where there is no compiler. And the tool
/// and the C program say what the tool of this build says.
fn works_by_itself(folder: &Path) {
    let readme = fs::read_to_string(folder.join("README.md")).expect("its README");
    let commands = readme.lines().filter_map(|line| line.strip_prefix("    "));
    let commands: Vec<&str> = commands.map(|line| line.split("  ").next().expect("a split has a first part")).collect();
    assert_eq!(commands.len(), 7, "{commands:?}");
    let has_compiler = sh(folder, "cc --version").status.success();
    if !has_compiler {
        // Not by `println!`, whose output a passing test keeps to itself.
        writeln!(io::stderr(), "package: there is no cc: its C program is passed over").expect("standard error");
    }
    for command in commands {
        let is_c = command.starts_with("cc ") || command.starts_with("./walk ");
        if has_compiler || !is_c {
            out(folder, command);
        }
    }
    let tool = env!("CARGO_BIN_EXE_pitchsleet");
    let expected = out(folder, &format!("'{tool}' check examples/frost.bril"));
    assert_eq!(out(folder, "bin/pitchsleet check examples/frost.bril"), expected);
    assert_eq!(out(folder, "bin/pitchsleet --version"), format!("pitchsleet {}\n", env!("CARGO_PKG_VERSION")));
    let refused = sh(folder, "bin/pitchsleet check examples/frost-refused.bril");
    assert_eq!(refused.status.code(), Some(1));
    if has_compiler {
        assert_eq!(out(folder, "./walk examples/frost.bril"), expected);
        let refused = sh(folder, "./walk examples/frost-refused.bril");
        assert_eq!(refused.status.code(), Some(1));
        assert!(refused.stdout.starts_with(b"examples/frost-refused.bril: refused 17 at byte 1242: [line 41] Error "));
    }
}

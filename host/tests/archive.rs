//! When the crates are proved again: tools/archive, and host/build.rs and ./pitchsleet, which leave it to that. In a small
//! repository, with an `rt` that only writes down that it was called.
mod outside;

use std::ffi::OsString;
use std::fs::{self, File};
use std::io::{self, Write};
use std::os::unix::fs::PermissionsExt;
use std::path::{Path, PathBuf};
use std::process::{Command, Output};
use std::time::{Duration, SystemTime};

use outside::Outside;

const ARCHIVE: &str = "target/staticlib/libpitchsleet.a";
const STAMP: &str = "target/staticlib/libpitchsleet.a.stamp";
const CRATE: &str = "crates/pitchsleet";
const SOURCE: &str = "crates/utils/src/lib.rt";

/// An `rt` that writes down each call, and in which crate's folder it came.
const IS_CALLED: &str = r#"echo "${PWD##*/}: rt $*" >> ../../calls"#;

/// One that makes an archive that depends on what it is made from, and keeps something of each crate below, as rt does.
const MAKES: &str = r#"echo "${PWD##*/}: rt $*" >> ../../calls
mkdir -p out ../utils/out
echo "$$" >> ../utils/out/kept
cat ../*/src/* > out/libpitchsleet.a"#;

/// And one that proves nothing.
const REFUSES: &str = r#"echo "${PWD##*/}: rt $*" >> ../../calls
echo logic=not-proved
exit 1"#;

/// A `cargo` that writes down each call, and makes a tool that says what it is called with.
const BUILDS: &str = r#"echo built >> ../builds
mkdir -p ../target/host/release
printf '#!/bin/sh\necho "$*"\n' > ../target/host/release/pitchsleet
chmod +x ../target/host/release/pitchsleet"#;

/// A repository with three crates.
struct Repository {
    root: Outside,
}

impl Repository {
    fn new(name: &str) -> Self {
        let repository = Self { root: Outside::new(&format!("archive-{name}")) };
        repository.copy("tools/archive");
        repository.write(SOURCE, "fn one() {}\n");
        repository.write("crates/lexer/src/lib.rt", "fn two() {}\n");
        repository.write(&format!("{CRATE}/src/lib.rt"), "fn three() {}\n");
        repository.write("crates.txt", "utils:\nlexer: utils\npitchsleet staticlib: lexer utils\n");
        repository.program("rt", MAKES);
        repository.grow_old();
        repository
    }

    fn path(&self, name: &str) -> PathBuf {
        self.root.path().join(name)
    }

    /// A file of this repository, as it is in the real one.
    fn copy(&self, name: &str) {
        let to = self.path(name);
        fs::create_dir_all(to.parent().expect("a folder")).expect("a folder");
        fs::copy(Path::new(env!("CARGO_MANIFEST_DIR")).join("..").join(name), to).expect("a copy");
    }

    fn write(&self, name: &str, contents: &str) {
        let file = self.path(name);
        fs::create_dir_all(file.parent().expect("a folder")).expect("a folder");
        fs::write(file, contents).expect("a file");
    }

    /// The Rust crate, without its code.
    fn add_host(&self) {
        self.copy("host/Cargo.toml");
        self.copy("host/build.rs");
        self.write("host/src/lib.rs", "");
        self.write("README.md", "");
    }

    /// A program of the repository's own, which stands in front of the PATH.
    fn program(&self, name: &str, words: &str) {
        let name = format!("bin/{name}");
        self.write(&name, &format!("#!/bin/sh\nset -e\n{words}\n"));
        fs::set_permissions(self.path(&name), fs::Permissions::from_mode(0o755)).expect("its mode");
    }

    /// Sets every time an hour back, so that what is written from now on is newer than all.
    fn grow_old(&self) {
        for path in below(self.root.path()) {
            let about = fs::metadata(&path).and_then(|about| about.modified()).expect("a time");
            set_time(&path, about - Duration::from_secs(3600));
        }
    }

    /// Gives a file a time of just now, and leaves its contents. (A file's clock may be some milliseconds behind.)
    fn touch(&self, name: &str) {
        set_time(&self.path(name), SystemTime::now() - Duration::from_secs(1));
    }

    fn env_path(&self) -> OsString {
        let path = std::env::var_os("PATH").expect("a PATH");
        let paths = [self.path("bin")].into_iter().chain(std::env::split_paths(&path));
        std::env::join_paths(paths).expect("a PATH")
    }

    fn run(&self, program: &str, words: &[&str]) -> Output {
        let output =
            Command::new(self.path(program)).args(words).current_dir("/").env("PATH", self.env_path()).output();
        output.expect("it runs")
    }

    /// Runs tools/archive, which must find or make an archive, and says whether the crates were proved for it.
    fn proves(&self) -> bool {
        let before = self.calls();
        let output = self.run("tools/archive", &[]);
        assert!(output.status.success(), "{}", said(&output));
        assert!(output.stdout.is_empty());
        let calls = self.calls() - before;
        assert!(calls <= 1);
        assert_eq!(output.stderr.is_empty(), calls == 0, "{}", said(&output));
        calls == 1
    }

    /// How often rt was called.
    fn calls(&self) -> usize {
        let calls = fs::read_to_string(self.path("calls")).unwrap_or_default();
        assert!(calls.lines().all(|call| call == "pitchsleet: rt lib"), "{calls}");
        calls.lines().count()
    }
}

fn below(path: &Path) -> Vec<PathBuf> {
    let entries = fs::read_dir(path).into_iter().flatten().flatten();
    let below = entries.flat_map(|entry| below(&entry.path()));
    [path.to_path_buf()].into_iter().chain(below).collect()
}

fn set_time(path: &Path, time: SystemTime) {
    File::open(path).and_then(|file| file.set_modified(time)).expect("its time is set");
}

fn said(output: &Output) -> String {
    String::from_utf8_lossy(&output.stderr).into_owned()
}

#[test]
fn a_time_alone_proves_nothing() {
    let repository = Repository::new("times");
    assert!(repository.proves(), "there is no archive");
    assert!(!repository.proves());
    for name in [SOURCE, "crates/utils/src", "crates.txt", ARCHIVE, STAMP] {
        repository.grow_old();
        repository.touch(name);
        assert!(!repository.proves(), "{name}");
        assert!(!repository.proves(), "{name}, once more");
    }
}

/// Once the contents are compared, the stamp is newer than all, so that they aren't read again.
#[test]
fn the_stamp_s_time_is_renewed() {
    let repository = Repository::new("renewed");
    assert!(repository.proves());
    repository.grow_old();
    repository.touch(SOURCE);
    assert!(!repository.proves());
    let time = |name| fs::metadata(repository.path(name)).and_then(|about| about.modified()).expect("a time");
    assert!(time(STAMP) >= time(SOURCE));
    // Without a tool for checksums nothing could be compared.
    repository.program("sha256sum", "echo called >&2; exit 1");
    assert!(!repository.proves());
    let left = fs::read_dir(repository.path("target/staticlib")).expect("a folder").count();
    assert_eq!(left, 2, "the archive and its stamp, and nothing else is left behind");
}

#[test]
fn other_contents_are_proved() {
    let repository = Repository::new("contents");
    assert!(repository.proves());
    repository.write(SOURCE, "fn other() {}\n");
    assert!(repository.proves(), "another text");
    repository.write("crates/utils/src/more.rt", "");
    assert!(repository.proves(), "a file more, though it is empty");
    fs::rename(repository.path("crates/utils/src/more.rt"), repository.path("crates/utils/src/less.rt"))
        .expect("moved");
    assert!(repository.proves(), "another name");
    fs::remove_file(repository.path("crates/utils/src/less.rt")).expect("removed");
    assert!(repository.proves(), "a file less");
    repository.write("crates.txt", "lexer: utils\nutils:\npitchsleet staticlib: lexer utils\n");
    assert!(repository.proves(), "another order of the crates");
    assert!(!repository.proves());

    // Changed, and changed back before it was looked at.
    let before = fs::read_to_string(repository.path(SOURCE)).expect("a file");
    repository.write(SOURCE, "fn wrong() {}\n");
    repository.write(SOURCE, &before);
    assert!(!repository.proves());
}

/// What rt keeps in each crate's out/ is no source, also where it is new or newer.
#[test]
fn what_rt_keeps() {
    let repository = Repository::new("kept");
    assert!(repository.proves());
    for name in ["crates/utils/out/kept", "crates/utils/out/deeper/kept", "crates/lexer/out/new"] {
        repository.write(name, "kept");
        assert!(!repository.proves(), "{name}");
    }
    fs::remove_file(repository.path(STAMP)).expect("removed");
    repository.grow_old();
    repository.touch(ARCHIVE);
    repository.write("crates/utils/out/kept", "kept later");
    assert!(!repository.proves(), "the archive is newer than all but that");
    // A function may be called `out`, and its proof stands in a folder of that name.
    repository.write("crates/utils/proofs/out/Answers.antt", "");
    assert!(repository.proves(), "a file more");
    repository.write("crates/utils/proofs/out/Answers.antt", "-- another");
    assert!(repository.proves(), "another text");
    assert!(!repository.proves());
}

/// The gate makes it in any case.
#[test]
fn an_archive_made_anew() {
    let repository = Repository::new("anew");
    for calls in 1..=2 {
        let output = repository.run("tools/archive", &["--anew"]);
        assert!(output.status.success(), "{}", said(&output));
        assert_eq!(repository.calls(), calls);
        assert!(!repository.proves());
    }
    repository.program("rt", REFUSES);
    assert_eq!(repository.run("tools/archive", &["--anew"]).status.code(), Some(2), "and takes no earlier one");
    let output = repository.run("tools/archive", &["--again"]);
    assert_eq!(
        (output.status.code(), said(&output).as_str()),
        (Some(2), "pitchsleet: usage: tools/archive [--anew]\n")
    );
}

/// A person may call rt, and copy what it makes.
#[test]
fn an_archive_that_was_copied() {
    let repository = Repository::new("by-hand");
    let rt = || {
        let rt = repository.path("bin/rt");
        let made = Command::new(rt).arg("lib").current_dir(repository.path(CRATE)).status();
        assert!(made.expect("rt runs").success());
        let folder = repository.path(ARCHIVE).parent().expect("a folder").to_path_buf();
        fs::create_dir_all(folder).expect("a folder");
        // Its contents alone, so that its time is that of the copy.
        let made = fs::read(repository.path(CRATE).join("out/libpitchsleet.a")).expect("an archive");
        fs::write(repository.path(ARCHIVE), made).expect("a copy");
    };
    rt();
    assert!(!repository.proves(), "it is newer than all, and has no stamp");
    assert!(repository.path(STAMP).exists());
    repository.touch(SOURCE);
    assert!(!repository.proves(), "it has its stamp now");

    fs::remove_file(repository.path(STAMP)).expect("removed");
    repository.grow_old();
    repository.touch(SOURCE);
    assert!(repository.proves(), "it is older than a source, and has no stamp");

    // Its stamp is of the archive before: of another text.
    let before = fs::read_to_string(repository.path(SOURCE)).expect("a file");
    repository.grow_old();
    repository.write(SOURCE, "fn other() {}\n");
    rt();
    repository.grow_old();
    repository.write(SOURCE, &before);
    assert!(repository.proves(), "the stamp's contents are there again, but the archive is another");
    assert!(!repository.proves());

    repository.grow_old();
    repository.write(SOURCE, "fn other() {}\n");
    rt();
    assert!(!repository.proves(), "it is newer than all, and has another's stamp");
    assert!(!repository.proves());
}

#[test]
fn a_source_that_changes_while_it_is_proved() {
    let repository = Repository::new("meanwhile");
    repository.program("rt", &format!("{MAKES}\necho '// more' >> ../../{SOURCE}"));
    assert!(repository.proves());
    repository.program("rt", MAKES);
    assert!(repository.proves());
    assert!(!repository.proves());
}

#[test]
fn what_is_not_proved() {
    let repository = Repository::new("refused");
    repository.program("rt", REFUSES);
    for calls in 1..=2 {
        let output = repository.run("tools/archive", &[]);
        assert_eq!(output.status.code(), Some(2));
        assert!(said(&output).ends_with("logic=not-proved\npitchsleet: the crates are not proved: nothing is built\n"));
        assert!(output.stdout.is_empty());
        assert_eq!(repository.calls(), calls, "it is tried again");
    }
    repository.program("rt", IS_CALLED);
    assert_eq!(repository.run("tools/archive", &[]).status.code(), Some(2), "rt has made nothing");
    repository.program("rt", MAKES);
    assert!(repository.proves());

    // An old archive isn't enough for a new source.
    repository.write(SOURCE, "fn wrong() {}\n");
    repository.program("rt", REFUSES);
    for _ in 0..2 {
        assert_eq!(repository.run("tools/archive", &[]).status.code(), Some(2));
    }
}

/// What tools/archive calls beside rt.
const ITS_TOOLS: [&str; 12] =
    ["sh", "dirname", "find", "head", "sha256sum", "cut", "sort", "mkdir", "touch", "cp", "mv", "rm"];

/// A PATH with these tools of the machine, and no other.
fn path_of(repository: &Repository, tools: &[&str]) -> PathBuf {
    let alone = repository.path("tools-alone");
    fs::create_dir_all(&alone).expect("a folder");
    for tool in tools {
        let path = std::env::var_os("PATH").expect("a PATH");
        let found = std::env::split_paths(&path).map(|folder| folder.join(tool)).find(|file| file.exists());
        std::os::unix::fs::symlink(found.expect("a usual tool"), alone.join(tool)).expect("a link");
    }
    alone
}

#[test]
fn without_rt() {
    let repository = Repository::new("without");
    let path = path_of(&repository, &ITS_TOOLS);
    let output = Command::new(repository.path("tools/archive")).env("PATH", &path).output().expect("it runs");
    assert_eq!(output.status.code(), Some(2));
    assert_eq!(said(&output), "pitchsleet: rt is needed to build it, and is not on the PATH\n");
}

/// As cargo shows what a build script ends with.
fn error_of_the_crate(line: &str) -> String {
    format!("error: pitchsleet@{}: {line}", env!("CARGO_PKG_VERSION"))
}

/// cargo runs host/build.rs again where a time has changed; that proves nothing.
#[test]
fn the_build_script() {
    let repository = Repository::new("build");
    repository.add_host();
    let build = || {
        let cargo = Command::new(env!("CARGO"))
            .args(["check", "--offline", "--quiet", "--lib", "--target-dir"])
            .arg(repository.path("target/host"))
            .current_dir(repository.path("host"))
            .env("PATH", repository.env_path())
            .output();
        cargo.expect("cargo runs")
    };
    let calls_of = |what: &str| {
        let before = repository.calls();
        let output = build();
        assert!(output.status.success(), "{what}: {}", said(&output));
        repository.calls() - before
    };
    assert_eq!(calls_of("the first time"), 1);
    assert_eq!(calls_of("again"), 0);
    set_time(&repository.path(SOURCE), SystemTime::now() + Duration::from_secs(60));
    assert_eq!(calls_of("another time"), 0);
    repository.write(SOURCE, "fn other() {}\n");
    assert_eq!(calls_of("another text"), 1);
    repository.program("rt", REFUSES);
    repository.write(SOURCE, "fn wrong() {}\n");
    let output = build();
    assert!(!output.status.success());
    for line in ["logic=not-proved\n", "pitchsleet: the crates are not proved: "] {
        assert!(said(&output).contains(&error_of_the_crate(line)), "{}", said(&output));
    }
    assert!(!said(&output).contains("panicked"), "{}", said(&output));
}

/// Without `rt`, cargo ends with a sentence.
#[test]
fn the_build_script_without_rt() {
    let repository = Repository::new("build-without-rt");
    repository.add_host();
    let path = path_of(&repository, &[&ITS_TOOLS[..], &["rustc", "cc", "ld", "as"]].concat());
    let cargo = Command::new(env!("CARGO"))
        .args(["check", "--offline", "--quiet", "--lib"])
        .current_dir(repository.path("host"))
        .env("PATH", path)
        .output();
    let output = cargo.expect("cargo runs");
    assert!(!output.status.success());
    let sentence = error_of_the_crate("pitchsleet: rt is needed to build it, and is not on the PATH\n");
    assert!(said(&output).contains(&sentence), "{}", said(&output));
    assert!(!said(&output).contains("panicked"), "{}", said(&output));
}

/// And where tools/archive ends without a word, with one that says so.
#[test]
fn the_build_script_where_nothing_is_said() {
    let repository = Repository::new("build-silent");
    repository.add_host();
    repository.write("tools/archive", "exit 3\n");
    let cargo = Command::new(env!("CARGO"))
        .args(["check", "--offline", "--quiet", "--lib"])
        .current_dir(repository.path("host"))
        .output();
    let output = cargo.expect("cargo runs");
    assert!(!output.status.success());
    let sentence = error_of_the_crate("tools/archive has made no archive: exit status: 3\n");
    assert!(said(&output).contains(&sentence), "{}", said(&output));
}

/// Whoever waits at a terminal sees how far the proofs are, while cargo itself says nothing. `script` makes a terminal.
#[test]
fn the_build_script_shows_progress() {
    let repository = Repository::new("build-progress");
    repository.add_host();
    repository.program(
        "rt",
        &format!("echo 'fn utils::put: proved'\necho 'crate utils: modules loaded=0 checked=33'\n{MAKES}"),
    );
    let command = format!("{} check --offline --quiet --lib", env!("CARGO"));
    let output = Command::new("script")
        .args(["--quiet", "--return", "--command", &command, "/dev/null"])
        .current_dir(repository.path("host"))
        .env("PATH", repository.env_path())
        .output();
    let Ok(output) = output else {
        // Not by `println!`, whose output a passing test keeps to itself.
        writeln!(io::stderr(), "passed over: there is no `script` to make a terminal").expect("standard error");
        return;
    };
    let shown = String::from_utf8_lossy(&output.stdout);
    assert!(output.status.success(), "{shown}");
    assert!(shown.contains("pitchsleet: first run: the crates are proved"), "{shown}");
    assert!(shown.contains("crate utils: modules loaded=0"), "{shown}");
    assert!(!shown.contains("fn utils::put"), "a line a crate: {shown}");
}

/// ./pitchsleet builds the tool where the archive is another, and not where a time is.
#[test]
fn the_tool_s_script() {
    let repository = Repository::new("tool");
    repository.copy("pitchsleet");
    for name in ["host/src/lib.rs", "host/build.rs", "host/Cargo.toml"] {
        repository.write(name, "");
    }
    repository.program("cargo", BUILDS);
    repository.grow_old();
    let runs = || {
        let output = repository.run("pitchsleet", &["read", "x y"]);
        assert_eq!((output.status.code(), &output.stdout[..]), (Some(0), &b"read x y\n"[..]), "{}", said(&output));
        let builds = fs::read_to_string(repository.path("builds")).expect("a file").lines().count();
        (repository.calls(), builds, said(&output))
    };
    let (calls, builds, said) = runs();
    assert_eq!((calls, builds), (1, 1));
    assert!(
        said.starts_with("pitchsleet: first run: the crates are proved, ") && said.ends_with(": the tool is built\n")
    );
    assert_eq!(runs(), (1, 1, String::new()));
    repository.grow_old();
    repository.touch(SOURCE);
    assert_eq!(runs(), (1, 1, String::new()), "a time alone");
    repository.write(SOURCE, "fn other() {}\n");
    let (calls, builds, said) = runs();
    assert_eq!((calls, builds), (2, 2));
    assert_eq!(said, "pitchsleet: a crate has changed: it is proved again\npitchsleet: the tool is built\n");

    repository.program("rt", REFUSES);
    repository.write(SOURCE, "fn wrong() {}\n");
    let output = repository.run("pitchsleet", &["read", "x"]);
    assert_eq!((output.status.code(), &output.stdout[..]), (Some(2), &b""[..]));
}

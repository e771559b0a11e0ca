//! The machine's C compiler, for the tests that build a program against the header and the archive.
use std::ffi::OsStr;
use std::io::{self, Write};
use std::path::{Path, PathBuf};
use std::process::Command;

/// A compiler that makes programs for the processor that the archive is for.
pub struct Compiler(&'static str);

/// What every program here must be without a warning of.
pub const STRICT: [&str; 5] = ["-Wall", "-Wextra", "-pedantic", "-Werror", "-O1"];

impl Compiler {
    /// The machine's own, or the one for x86-64 on another processor. Where there is none a line says so.
    pub fn of_c() -> Option<Self> {
        Self::first(&["cc", "x86_64-linux-gnu-gcc"], "C")
    }

    pub fn of_cpp() -> Option<Self> {
        Self::first(&["c++", "g++", "x86_64-linux-gnu-g++"], "C++")
    }

    fn first(names: &[&'static str], language: &str) -> Option<Self> {
        let found = names.iter().find(|name| {
            let machine = Command::new(name).arg("-dumpmachine").output();
            machine.is_ok_and(|machine| machine.stdout.starts_with(b"x86_64"))
        });
        if found.is_none() {
            // Not by `println!`, whose output a passing test keeps to itself.
            let names = names.join(", ");
            writeln!(io::stderr(), "c: passed over: there is no compiler of {language} for x86-64 among {names}")
                .expect("standard error");
        }
        found.map(|name| Self(name))
    }

    /// Compiles with these words, which must go without a word of the compiler's.
    pub fn run(&self, words: impl IntoIterator<Item = impl AsRef<OsStr>>) {
        let output = Command::new(self.0).args(words).output().expect("the compiler runs");
        let said = String::from_utf8_lossy(&output.stderr);
        assert!(output.status.success() && said.is_empty(), "{}: {said}", self.0);
    }

    /// A program of one file, by the header and the archive of the repository.
    pub fn program(&self, words: &[&str], source: &Path, name: &str) -> PathBuf {
        let program = Path::new(env!("CARGO_TARGET_TMPDIR")).join(name);
        let (include, archive) = (root().join("include"), root().join("target/staticlib/libpitchsleet.a"));
        // Whatever the language of the source is, the archive is none.
        let words = STRICT.iter().chain(words).chain(&["-I"]).map(OsStr::new);
        let files =
            [include.as_ref(), "-o".as_ref(), program.as_ref(), source.as_ref(), "-xnone".as_ref(), archive.as_ref()];
        self.run(words.chain(files));
        program
    }
}

/// The repository's root.
pub fn root() -> PathBuf {
    Path::new(env!("CARGO_MANIFEST_DIR")).parent().expect("host/ is in the repository").to_path_buf()
}

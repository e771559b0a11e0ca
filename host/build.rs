//! Has the archive of the proved functions, target/staticlib/libpitchsleet.a, linked. Where it is missing, or made from other
//! contents than crates/ has, tools/archive makes it anew. That proves the crates: it takes minutes the first time.
use std::fs::{self, File, OpenOptions};
use std::io::{BufRead, BufReader, Write};
use std::path::{Path, PathBuf};
use std::process::{Command, Stdio};

const ARCHIVE: &str = "target/staticlib/libpitchsleet.a";
const TOOL: &str = "tools/archive";
const CRATES: &str = "crates";
const LIST: &str = "crates.txt";

/// How much of what was said is shown where there is no archive, in lines.
const SHOWN: usize = 20;

fn main() {
    let root = root();
    for watched in watched(&root) {
        println!("cargo::rerun-if-changed={}", watched.display());
    }
    match make_archive(&root) {
        Ok(()) => {
            println!("cargo::rustc-link-search=native={}", root.join("target/staticlib").display());
            println!("cargo::rustc-link-lib=static=pitchsleet");
        }
        // cargo shows them as errors of this crate, and stops.
        Err(lines) => lines.iter().for_each(|line| println!("cargo::error={line}")),
    }
}

/// The repository's root: the folder above this crate's.
fn root() -> PathBuf {
    let host = std::env::var_os("CARGO_MANIFEST_DIR").expect("cargo sets it");
    let host = PathBuf::from(host);
    host.parent().expect("host/ is in the repository").to_path_buf()
}

/// The archive, and what it is made by and from. A crate's out/ is no source: rt writes there at every check.
fn watched(root: &Path) -> Vec<PathBuf> {
    let entries = |folder: &Path| fs::read_dir(folder).into_iter().flatten().flatten().map(|entry| entry.path());
    let of_crates = entries(&root.join(CRATES)).flat_map(|folder| entries(&folder));
    let sources = of_crates.filter(|path| !path.ends_with("out"));
    [ARCHIVE, TOOL, LIST].map(|name| root.join(name)).into_iter().chain(sources).collect()
}

/// Where there is no archive, what was said last of why.
fn make_archive(root: &Path) -> Result<(), Vec<String>> {
    let failed = |why: std::io::Error| vec![format!("{TOOL} can't be run: {why}")];
    let mut making =
        Command::new("sh").arg(root.join(TOOL)).stdout(Stdio::null()).stderr(Stdio::piped()).spawn().map_err(failed)?;
    let mut progress = Progress::new();
    let mut said = Vec::new();
    for line in making.stderr.take().into_iter().flat_map(|said| BufReader::new(said).split(b'\n')) {
        let line = String::from_utf8_lossy(&line.map_err(failed)?).into_owned();
        progress.show(&line);
        said.push(line);
    }
    let status = making.wait().map_err(failed)?;
    if status.success() {
        return Ok(());
    }
    let mut last = said.split_off(said.len().saturating_sub(SHOWN));
    last.push(format!("{TOOL} has made no archive: {status}"));
    Err(last)
}

/// cargo keeps what a build script says until it ends (but for `cargo build -vv`), and proofs take minutes. So what tells how
/// far they are goes to the terminal by itself, where there is one.
struct Progress {
    terminal: Option<File>,
}

impl Progress {
    fn new() -> Self {
        Self { terminal: OpenOptions::new().write(true).open("/dev/tty").ok() }
    }

    fn show(&mut self, line: &str) {
        eprintln!("{line}");
        if let (Some(terminal), true) = (&mut self.terminal, is_progress(line)) {
            // The line that cargo draws there gives way. Who has closed the terminal misses nothing.
            let _ = write!(terminal, "\r\x1b[K{line}\r\n");
        }
    }
}

/// `crate utils: modules loaded=0 checked=33`, which ends each crate, and what rt and tools/archive say themselves.
fn is_progress(line: &str) -> bool {
    ["crate ", "rt: ", "pitchsleet: "].iter().any(|front| line.starts_with(front))
}

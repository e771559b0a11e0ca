//! What README.md shows is what comes of it: each command of the tool, and the Rust.
use std::process::Command;

const README: &str = include_str!("../../README.md");
const TOOL: &str = env!("CARGO_BIN_EXE_pitchsleet");

/// The commands that README.md shows with what comes of them: lines that begin with `$ ./pitchsleet`, each with the lines
/// behind it, up to the next command or the end of the indented part.
fn shown() -> Vec<(&'static str, Vec<&'static str>)> {
    let mut commands: Vec<(&str, Vec<&str>)> = Vec::new();
    let mut is_open = false;
    for line in README.lines() {
        match (line.strip_prefix("    $ ./pitchsleet "), line.strip_prefix("    ")) {
            (Some(words), _) => {
                commands.push((words, Vec::new()));
                is_open = true;
            }
            (None, Some(said)) if is_open => commands.last_mut().expect("one is open").1.push(said),
            (None, None) if line.is_empty() && is_open => commands.last_mut().expect("one is open").1.push(""),
            _ => is_open = false,
        }
    }
    commands
}

/// What the tool says at the repository's root, on both outputs.
fn said(words: &str) -> String {
    let root = concat!(env!("CARGO_MANIFEST_DIR"), "/..");
    let output = Command::new(TOOL).args(words.split(' ')).current_dir(root).output().expect("the tool runs");
    assert!(output.status.code().is_some_and(|status| status < 2), "{words}");
    [output.stdout, output.stderr].map(|said| String::from_utf8(said).expect("UTF-8")).concat()
}

#[test]
fn the_commands() {
    let commands = shown();
    assert!(commands.len() >= 4, "{commands:?}");
    for (words, lines) in commands {
        let said = said(words);
        let mut rest = said.as_str();
        let mut is_cut = false;
        for line in lines.iter().rev().skip_while(|line| line.is_empty()).collect::<Vec<_>>().into_iter().rev() {
            // Where README.md leaves something out, the next line is found further on.
            if *line == ".." {
                is_cut = true;
                continue;
            }
            let found = format!("{line}\n");
            let at = if is_cut { rest.find(&found) } else { rest.starts_with(&found).then_some(0) };
            let at = at.unwrap_or_else(|| panic!("./pitchsleet {words} doesn't say: {line}\n{said}"));
            rest = &rest[at + found.len()..];
            is_cut = false;
        }
        assert_eq!(rest, "", "README.md shows the end of what ./pitchsleet {words} says");
    }
}

/// The Rust that README.md shows, here as it stands there: `the_rust` holds one to the other.
fn as_in_the_readme(text: &[u8]) {
    let mut reader = pitchsleet::Reader::new();
    match reader.check(text) {
        Ok(unit) => {
            for function in unit.functions() {
                for block in function.blocks() {
                    println!("{}, block {}: to {:?}", function.name().spelling, block.number(), block.successors());
                }
            }
            for warning in unit.warnings() {
                println!("at byte {}: {warning}", warning.place);
            }
        }
        Err(refusal) => println!("{:?}: {refusal}", refusal.kind()),
    }
}

#[test]
fn the_rust() {
    let (_, rest) = README.split_once("```rust\n").expect("README.md shows Rust");
    let (shown, _) = rest.split_once("```").expect("and ends it");
    let this: String = include_str!("readme.rs").split_whitespace().collect();
    let shown: String = shown.split_whitespace().collect();
    assert!(this.contains(&shown), "the Rust of README.md isn't the one of this test");
    for text in ["@f { .a: br x .a .b; .b: nop; }", "@f { ret x; }"] {
        as_in_the_readme(text.as_bytes());
    }
}

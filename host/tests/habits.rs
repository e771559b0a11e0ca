//! Habits of the command-line tool: several files, colours, quiet, closed outputs, names as they are.
mod tool;

use std::ffi::OsStr;
use std::fs;
use std::io::{self, Write};
use std::os::unix::ffi::OsStrExt;
use std::path::Path;
use std::process::{Command, Stdio};

use tool::{Scratch, TOOL, answer, err, out, run, status};

#[test]
fn several_files_have_one_status() {
    let good = Scratch::new("several-good.bril", b"@f { nop; }\n");
    let bad = Scratch::new("several-bad.bril", b"@f { ret x; }\n");
    let (good, bad) = (good.name(), bad.name());
    let alone = |name: &str, status| answer(&["check", name], b"", status);
    for (files, expected) in [(vec![good, bad, good], 1), (vec![good, good], 0), (vec![bad, bad], 1)] {
        let words = [vec!["check"], files.clone()].concat();
        let all: String = files.iter().map(|name| alone(name, i32::from(*name == bad))).collect();
        assert_eq!(answer(&words, b"", expected), all);
    }
    // One that isn't there is named, and the others are answered.
    let output = run(&["check", bad, "no/such/file", good, "-"], b"@g { nop; }");
    let standard_input = answer(&["check", "-"], b"@g { nop; }", 0);
    assert_eq!((status(&output), out(&output)), (2, [alone(bad, 1), alone(good, 0), standard_input].concat().as_str()));
    assert_eq!(err(&output), "pitchsleet: no/such/file can't be read: No such file or directory (os error 2)\n");
    // What is said of it stands between the others' answers, where both outputs are one.
    let both = |words: &str| {
        let output = Command::new("sh").args(["-c", &format!("'{TOOL}' {words} 2>&1")]).output().expect("a shell");
        String::from_utf8(output.stdout).expect("UTF-8")
    };
    let said = both(&format!("check '{good}' no/such/file '{bad}'"));
    let (before, behind) = said.split_once("pitchsleet: no/such/file can't be read: ").expect("it is said");
    assert!(before == alone(good, 0) && behind.ends_with(&alone(bad, 1)), "{said}");
    let said = both(&format!("check --dot '{good}' '{bad}' '{good}'"));
    let graph = answer(&["check", "--dot", good], b"", 0);
    assert_eq!(said, [graph.as_str(), &alone(bad, 1), &graph].concat());
    // A line of JSON for each, with its name.
    let lines = answer(&["read", "--json", good, bad], b"", 0);
    let lines: Vec<&str> = lines.lines().collect();
    assert_eq!(lines.len(), 2);
    for (line, name) in lines.iter().zip([good, bad]) {
        assert!(line.starts_with(&format!("{{\"file\":\"{name}\",\"number\":0,")), "{line}");
    }
}

#[test]
fn quiet_leaves_refusals_and_warnings() {
    let good = b"@f { nop; }";
    assert_eq!(answer(&["check", "--quiet", "-"], good, 0), "");
    assert_eq!(answer(&["read", "-q", "-"], good, 0), "");
    let refused = b"@f { ret x; }";
    assert_eq!(answer(&["check", "--quiet", "-"], refused, 1), answer(&["check", "-"], refused, 1));
    let output = run(&["check", "--quiet", "-"], b"@f { print x; }");
    assert_eq!((status(&output), out(&output)), (0, ""));
    assert!(err(&output).starts_with("-:1:12: warning: "), "{}", err(&output));
    let old = Scratch::new("quiet-old.bril", good);
    assert_eq!(answer(&["recheck", "--quiet", old.name(), "f", "-"], b"@f { ret; }", 0), "");
}

#[test]
fn colours_where_they_are_asked_for() {
    let text = b"@f { print x; }";
    let coloured = run(&["check", "--color=always", "-"], text);
    assert!(out(&coloured).contains("\u{1b}[1;32maccepted\u{1b}[0m"), "{}", out(&coloured));
    assert!(err(&coloured).contains("\u{1b}[1;33mwarning:\u{1b}[0m"), "{}", err(&coloured));
    let refused = run(&["check", "--color", "always", "-"], b"@f { ret x; }");
    for mark in ["\u{1b}[1m-:1:6\u{1b}[0m: ", "\u{1b}[1;31mrefused 16\u{1b}[0m: ", "\u{1b}[1;36mnote:\u{1b}[0m "] {
        assert!(out(&refused).contains(mark), "{}", out(&refused));
    }
    // Without its colours it is what stands in a file.
    let plain = |text: &str| {
        let codes = ["0", "1", "1;31", "1;32", "1;33", "1;36"].map(|code| format!("\u{1b}[{code}m"));
        codes.iter().fold(text.to_owned(), |text, code| text.replace(code, ""))
    };
    let uncoloured = run(&["check", "--color", "never", "-"], text);
    assert_eq!((plain(out(&coloured)).as_str(), plain(err(&coloured)).as_str()), (out(&uncoloured), err(&uncoloured)));
    for words in [&["check", "-"][..], &["check", "--color", "auto", "-"], &["check", "--color=never", "-"]] {
        let output = run(words, text);
        assert!(!out(&output).contains('\u{1b}') && !err(&output).contains('\u{1b}'), "{words:?}: it is no terminal");
    }
}

/// On a terminal there are colours, and `NO_COLOR` takes them away. `script` runs a program with a terminal of its own.
#[test]
fn colours_on_a_terminal() {
    let text = Scratch::new("coloured.bril", b"@f { ret x; }");
    let command = format!("{TOOL} check {}", text.name());
    let on_terminal = |name: &str, value: &str| {
        let words = ["--quiet", "--return", "--command", &command, "/dev/null"];
        let output =
            Command::new("script").args(words).env_remove("NO_COLOR").env("TERM", "xterm").env(name, value).output();
        output.ok().map(|output| String::from_utf8(output.stdout).expect("UTF-8"))
    };
    let Some(said) = on_terminal("NO_COLOR", "") else {
        // Not by `println!`, whose output a passing test keeps to itself.
        writeln!(io::stderr(), "passed over: there is no `script` to make a terminal").expect("standard error");
        return;
    };
    assert!(said.contains("\u{1b}[1;31mrefused 16"), "{said}");
    for (name, value) in [("NO_COLOR", "1"), ("TERM", "dumb")] {
        let said = on_terminal(name, value).expect("it ran");
        assert!(said.contains("refused 16") && !said.contains('\u{1b}'), "{name}: {said}");
    }
}

#[test]
fn an_option_of_another_command_is_named_as_such() {
    for (words, why) in [
        (&["read", "--dot", "-"][..], "--dot is an option of check, not of read"),
        (&["recheck", "--html", "a", "f", "b"], "--html is an option of check, not of recheck"),
        (&["check", "--dots", "-"], "unknown option --dots"),
        (&["check", "--dot", "--html", "-"], "--dot and --html are two answers"),
        (&["--json", "check", "-"], "a command must come before --json"),
        (&["check", "--color", "red", "-"], "--color takes always, never or auto"),
        (&["check", "--json", "--quiet", "-"], "--quiet is of what a person reads, and not of --json"),
    ] {
        let output = run(words, b"");
        let expected = format!("pitchsleet: {why} (pitchsleet help says more)\n");
        assert_eq!((status(&output), out(&output), err(&output)), (2, "", expected.as_str()));
    }
    // The same form twice is one answer.
    assert_eq!(answer(&["check", "--json", "--json", "-"], b"", 0), answer(&["check", "--json", "-"], b"", 0));
}

/// `pitchsleet check FILE | head -1` ends quietly, with the status of the text.
#[test]
fn a_closed_output_ends_quietly() {
    let large: String = (0..60).map(|i| format!("@f{i} {{ {} }}\n", "nop; ".repeat(30))).collect();
    let good = Scratch::new("closed-good.bril", large.as_bytes());
    let bad = Scratch::new("closed-bad.bril", b"@f { ret x; }");
    for (words, expected) in [
        (vec!["check", good.name()], 0),
        (vec!["check", "--json", good.name()], 0),
        (vec!["check", "--dot", good.name()], 0),
        (vec!["check", "--html", good.name()], 0),
        (vec!["read", good.name()], 0),
        (vec!["check", bad.name()], 1),
        (vec!["help"], 0),
    ] {
        let mut process = Command::new(TOOL)
            .args(&words)
            .stdin(Stdio::null())
            .stdout(Stdio::piped())
            .stderr(Stdio::piped())
            .spawn()
            .expect("the tool runs");
        drop(process.stdout.take());
        let output = process.wait_with_output().expect("the tool ends");
        assert_eq!((status(&output), err(&output)), (expected, ""), "{words:?}");
    }
}

/// Names with blanks, quotes and letters of any language stand as they are, so that editors find the file. What would
/// disturb a terminal is shown by its bytes.
#[test]
fn file_names_as_they_are() {
    let folder = Path::new(env!("CARGO_TARGET_TMPDIR")).join("names");
    let _ = fs::remove_dir_all(&folder);
    fs::create_dir_all(&folder).expect("a folder");
    let said = |name: &[u8], words: &[&str]| {
        let name = OsStr::from_bytes(name);
        fs::write(folder.join(name), "@f { ret x; }").expect("a file");
        let output = Command::new(TOOL).args(words).arg(name).current_dir(&folder).output().expect("the tool runs");
        assert_eq!((status(&output), err(&output)), (1, ""));
        out(&output).to_owned()
    };
    for name in ["Bl\u{fc}te 'n\u{e4}chste Nacht'.bril", "\u{971c}.bril", "a\\b.bril", "a\"b.bril"] {
        let shown = said(name.as_bytes(), &["check"]);
        assert!(shown.starts_with(&format!("{name}:1:6: refused 16: ")), "{shown}");
        let json = said(name.as_bytes(), &["check", "--json"]);
        let escaped = name.replace('\\', "\\\\").replace('"', "\\\"");
        assert!(json.starts_with(&format!("{{\"file\":\"{escaped}\",\"number\":16,")), "{json}");
    }
    let json = said(b"a\x1b\n.bril", &["check", "--json"]);
    assert!(json.starts_with("{\"file\":\"a\\u001b\\u000a.bril\",\"number\":16,"), "{json}");
    let shown = said(b"a\x1b[31m\n\xc2\x9b\xff.bril", &["check"]);
    assert!(shown.starts_with("a\\x1b[31m\\x0a\\xc2\\x9b\\xff.bril:1:6: refused 16: "), "{shown}");
    let output = Command::new(TOOL).args(["check", "\u{971c}"]).output().expect("the tool runs");
    assert!(err(&output).starts_with("pitchsleet: \u{971c} can't be read: "), "{}", err(&output));
}

//! Warnings of accepted texts that don't do what they seem to: from Rust, and from the tool.
mod tool;

use pitchsleet::{Reader, WarningKind};
use tool::{Scratch, answer, err, out, run, status, warned};

/// The kinds, places and spellings of a text's warnings.
fn warnings(text: &str) -> Vec<(WarningKind, usize, &str)> {
    let mut reader = Reader::new();
    let unit = reader.check(text.as_bytes()).expect("accepted");
    unit.warnings().iter().map(|warning| (warning.kind, warning.place, warning.spelling)).collect()
}

#[test]
fn a_text_that_does_what_it_says() {
    for text in [
        "",
        "@f { nop; }",
        "@f { ret; }",
        "@f(c: bool) { br c .a .b; .a: print c; jmp .b; .b: nop; }",
        // A name may be set in a block further on, or by a call.
        "@f { jmp .b; .a: print x; ret; .b: x: int = const 1; jmp .a; }",
        "@g: int { x: int = const 1; ret x; } @f { y: int = call @g; print y; }",
        // A function's last block, and labels at its start.
        "@f { .a: .b: nop; }",
    ] {
        assert_eq!(warnings(text), [], "{text}");
    }
}

#[test]
fn a_block_that_does_not_fall_through() {
    let text = "@f(c: bool) { br c .a .b; .a: nop; .b: nop; }";
    assert_eq!(warnings(text), [(WarningKind::NoFallThrough, 35, ".b")]);
    let text = "@f(c: bool) { br c .a .b; .a: call @f c; .b: ret; .c: nop; }";
    let expected = [(WarningKind::NoFallThrough, 41, ".b"), (WarningKind::DeadBlock, 50, ".c")];
    assert_eq!(warnings(text), expected);
}

#[test]
fn a_dead_block() {
    assert_eq!(warnings("@f { ret; .a: jmp .b; .b: ret; }"), [(WarningKind::DeadBlock, 10, ".a")]);
    // Of what stands at one place both are told: the block before it doesn't go on with it, and nothing else does.
    let expected = [(WarningKind::NoFallThrough, 10, ".a"), (WarningKind::DeadBlock, 10, ".a")];
    assert_eq!(warnings("@f { nop; .a: ret; }"), expected);
}

#[test]
fn a_name_that_is_never_set() {
    let text = "@f(n: int): int { c: bool = const true; br d .a .a; .a: print e; print n; ret n; }";
    assert_eq!(warnings(text), [(WarningKind::NeverSet, 43, "d"), (WarningKind::NeverSet, 62, "e")]);
    // What another function sets, or one of its formals, is not set here.
    let text = "@f(n: int) { x: int = const 1; } @g { print n; print x; }";
    assert_eq!(warnings(text), [(WarningKind::NeverSet, 44, "n"), (WarningKind::NeverSet, 53, "x")]);
    let mut reader = Reader::new();
    let unit = reader.check(text.as_bytes()).expect("accepted");
    let said: Vec<String> = unit.warnings().iter().map(ToString::to_string).collect();
    assert_eq!(said[0], "no operation of @g sets what is printed, 'n', and no formal is named so");
}

const TEXT: &str = "# a rule
@f {
  frost: bool = const true;
  br forst .pumps .end;
.pumps:
  nop;
.end:
  ret;
}
";

const WARNINGS: &str = "\
-:4:6: warning: no operation of @f sets the condition 'forst', and no formal is named so [never-set]
 4 |   br forst .pumps .end;
   |      ^~~~~
-:7:1: warning: the block before '.end' has no jmp, br or ret: it returns, and doesn't go on with '.end' [no-fall-through]
 7 | .end:
   | ^~~~
";

#[test]
fn the_tool_warns_on_standard_error() {
    let (listing, warnings) = warned(&["check", "-"], TEXT.as_bytes(), 0);
    assert!(listing.ends_with("-: accepted: 1 function, 3 blocks, 5 operations\n"), "{listing}");
    assert_eq!(warnings, WARNINGS);
    // Denied, they are said all the same, and the status is that of a refusal.
    assert_eq!(warned(&["check", "--deny-warnings", "-"], TEXT.as_bytes(), 1), (listing, WARNINGS.to_owned()));
    let fine = b"@f { ret; }";
    assert_eq!(answer(&["check", "--deny-warnings", "-"], fine, 0), answer(&["check", "-"], fine, 0));
    // Of a refused text there are none.
    let refused = run(&["check", "--deny-warnings", "-"], b"@f { br c .a .a; .a: ret x; }");
    assert_eq!((status(&refused), err(&refused)), (1, ""));
}

#[test]
fn recheck_warns_too_and_read_does_not() {
    assert_eq!(
        answer(&["read", "--deny-warnings", "-"], TEXT.as_bytes(), 0),
        answer(&["read", "-"], TEXT.as_bytes(), 0)
    );
    assert!(answer(&["read", "--json", "-"], TEXT.as_bytes(), 0).ends_with(",\"warnings\":[]}\n"));
    let old = Scratch::new("warned-old.bril", b"@f { ret; }");
    let new = b"@f { br x .a .a; .a: ret; }";
    let (_, warnings) = warned(&["recheck", old.name(), "f", "-"], new, 0);
    assert!(warnings.starts_with("-:1:9: warning: no operation of @f sets the condition 'x'"), "{warnings}");
    warned(&["recheck", "--deny-warnings", old.name(), "f", "-"], new, 1);
}

#[test]
fn warnings_in_json() {
    let output = run(&["check", "--json", "-"], TEXT.as_bytes());
    assert_eq!((status(&output), err(&output)), (0, ""));
    let (_, warnings) = out(&output).split_once(",\"warnings\":").expect("warnings");
    let expected = concat!(
        r#"[{"kind":"never-set","place":47,"file_line":4,"file_column":6,"#,
        r#""message":"no operation of @f sets the condition 'forst', and no formal is named so"},"#,
        r#"{"kind":"no-fall-through","place":81,"file_line":7,"file_column":1,"message":"the block before '.end' has "#,
        r#"no jmp, br or ret: it returns, and doesn't go on with '.end'"}]}"#,
        "\n"
    );
    assert_eq!(warnings, expected);
    assert_eq!(status(&run(&["check", "--json", "--deny-warnings", "-"], TEXT.as_bytes())), 1);
}

/// A stream's lines have them too; and the caret stands under what is meant, behind tabs and before a carriage return.
#[test]
fn warnings_of_streams_and_odd_lines() {
    let text = b"@f {\tprint\tx;\r\n}";
    let output = run(&["check", "--json", "--stream"], &[format!("{}\n", text.len()).as_bytes(), text].concat());
    let expected = r#","warnings":[{"kind":"never-set","place":11,"file_line":1,"file_column":12,"message":"no "#;
    assert!(out(&output).contains(expected), "{}", out(&output));
    let (_, warning) = warned(&["check", "--quiet", "-"], text, 0);
    let expected = "\n 1 | @f {    print    x;\n   |                  ^\n";
    assert!(warning.ends_with(expected), "{warning}");
    let (_, warning) = warned(&["check", "--quiet", "-"], b"@f {\tprint\tlong\r\n;}", 0);
    assert!(warning.ends_with("\n 1 | @f {    print    long\n   |                  ^~~~\n"), "{warning}");
}

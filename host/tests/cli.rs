//! The command-line tool: what it prints, where, and its exit status.
mod support;
mod tool;

use std::io::{BufRead, BufReader, Write};
use std::process::{Command, Stdio};

use pitchsleet::Reader;
use support::by_crate::{by_checker, by_reader, by_rechecker};
use support::edits::{self, Edit};
use support::json::Json;
use support::oracle::Depth;
use support::said::{Said, SaidBlock, SaidFunction, SaidOperation, SaidToken, SaidVariable};
use support::{edges, texts};
use tool::{Scratch, TOOL, answer, err, out, run, status, warned};

fn shown(text: &[u8], expected_status: i32) -> String {
    answer(&["read", "-"], text, expected_status)
}

fn checked(text: &[u8], expected_status: i32) -> String {
    answer(&["check", "-"], text, expected_status)
}

fn json(text: &[u8], expected_status: i32) -> String {
    answer(&["read", "--json", "-"], text, expected_status)
}

// ---- for a person ------------------------------------------------------------------------------------------------------

#[test]
fn an_accepted_text() {
    let expected = "\
1:1       global      @f
1:4       {
2:2       local       x
2:3       :
2:5       int
2:9       =
2:11      const
2:17      integer     -7
2:22      ;
3:1       }
3:2       END_OF_FILE
-: accepted: 11 tokens, 2 names
";
    assert_eq!(shown(b"@f {\n\tx: int = const -007 ;\n}", 0), expected);
    assert_eq!(shown(b"", 0), "1:1       END_OF_FILE\n-: accepted: 1 token, 0 names\n");
}

#[test]
fn a_refused_text() {
    let file = Scratch::new("refused.bril", b"@f {\n  x: int = const $5;\n}\n");
    let output = run(&["read", file.name()], b"");
    let expected = format!(
        "\
{}:2:18: refused 3: [line 2] Error : Unexpected token: '$'.
 2 |   x: int = const $5;
   |                  ^
",
        file.name()
    );
    assert_eq!((status(&output), out(&output), err(&output)), (1, expected.as_str(), ""));
}

/// An editor goes to the line and column; the message keeps the Rust's line.
#[test]
fn line_and_column_are_the_file_s() {
    let expected = "\
-:4:3: refused 4: [line 1] Error : Expected number after '-'.
 4 | a - b
   |   ^
 note: the message's line 1 is line 4 of the file: newlines in comments are not counted
";
    assert_eq!(shown(b"# one\n/* two\nthree */ // four\na - b", 1), expected);
    let expected = "2:1       local       x\n2:2       END_OF_FILE\n-: accepted: 2 tokens, 1 name\n";
    assert_eq!(shown(b"# one\nx", 0), expected);
}

#[test]
fn nothing_unprintable_reaches_a_terminal() {
    let refused = shown(b"\tx \x01\x1b\r\nnext", 1);
    assert_eq!(
        refused,
        "\
-:1:4: refused 3: [line 1] Error : Unexpected token: '\\x01'.
 1 |     x \\x01\\x1b
   |       ^
"
    );
    for byte in 0..=255 {
        let output = run(&["read", "-"], &[b' ', byte, b'$']);
        assert!(output.stdout.iter().all(|byte| matches!(byte, b' '..=b'~' | b'\n')), "the byte {byte}");
    }
}

#[test]
fn the_caret_may_stand_behind_the_text() {
    let text = [b";".repeat(4096), b"\n".to_vec()].concat();
    let expected = "\
-:2:1: refused 32: [line 2] Error : too many tokens.
 2 | 
   | ^
";
    assert_eq!(shown(&text, 1), expected);
}

#[test]
fn a_long_line_is_cut_around_the_place() {
    let text = [b"x ".repeat(500), b"$".to_vec(), b" y".repeat(500)].concat();
    let expected = format!(
        "\
-:1:1001: refused 3: [line 1] Error : Unexpected token: '$'.
 1 | ..{}${}..
   |   {}^
",
        "x ".repeat(30),
        " y".repeat(20).trim_end_matches('y'),
        " ".repeat(60)
    );
    assert_eq!(shown(&text, 1), expected);
}

#[test]
fn a_byte_above_127_is_pointed_out() {
    let expected = "\
-:1:1: refused 1: [line 1] Error : Only ASCII input is supported.
-:2:3: note: this is the first byte above 127
 2 | # \\xc3\\xa9
   |   ^
";
    assert_eq!(shown("x\n# é".as_bytes(), 1), expected);
}

#[test]
fn too_long_a_text_has_no_place() {
    let expected = "\
-: refused 31: [line 0] Error : too many bytes.
 note: the text has more than 16384 bytes
";
    assert_eq!(shown(&b" ".repeat(16_385), 1), expected);
    assert_eq!(shown(&b"\xff".repeat(1_000_000), 1), expected);
    assert!(shown(&b" ".repeat(16_384), 0).ends_with("accepted: 1 token, 0 names\n"));
}

// ---- a check for a person ----------------------------------------------------------------------------------------------

#[test]
fn an_accepted_program() {
    let text = b"@least(a: int, b: int): int {
  less: bool = lt a b;
  br less .a .b;
.a: .b2: nop; # nothing
.b:
  r: int = call @least a b;
  ret b;
.old:
  ret a;
}
@main {
  x: int = const -7;
  call @main;
  y: bool = const true;
  z: bool = not y;
  print x;
}
";
    // Two labels in a row leave an empty block.
    assert!(
        checked(text, 1).starts_with(
            "-:1:1: refused 22: [line 1] Error : empty block.\n 1 | @least(a: int, b: int): int {\n   | ^\n"
        )
    );
    let text = String::from_utf8(text.to_vec()).expect("ASCII").replace(".b2: nop;", "jmp .b;");
    let expected = "\
@least(a: int, b: int): int
  block 0: to 1, 2
    less:bool = lt a:int b:int
    br less .a .b
  block 1 .a: from 0; to 2
    jmp .b
  block 2 .b: from 0, 1
    r:int = call @least a:int b:int
    ret b
  block 3 .old: dead
    ret a

@main
  block 0
    x:int = const -7
    call @main
    y:bool = const true
    z:bool = not y:bool
    print x
    ret (added)

-: accepted: 2 functions, 5 blocks, 12 operations
";
    let warning = "\
-:8:1: warning: the block '.old' of @least is dead: nothing goes to it [dead-block]
 8 | .old:
   | ^~~~
";
    assert_eq!(warned(&["check", "-"], text.as_bytes(), 0), (expected.to_owned(), warning.to_owned()));
    assert_eq!(checked(b"", 0), "-: accepted: 0 functions, 0 blocks, 0 operations\n");
}

#[test]
fn a_refused_program() {
    let file = Scratch::new("refused-program.bril", b"@f {\n  x: int = const true;\n}\n");
    let output = run(&["check", file.name()], b"");
    let expected = format!(
        "\
{}:2:18: refused 17: [line 2] Error at 'true': 'int' type expected; 'bool' found
 2 |   x: int = const true;
   |                  ^
",
        file.name()
    );
    assert_eq!((status(&output), out(&output), err(&output)), (1, expected.as_str(), ""));
    let expected = [
        "-:2:6: refused 6: [line 1] Error at end of file: Local identifier expected.",
        " 2 | @f { ",
        "   |      ^",
        " note: the message's line 1 is line 2 of the file: newlines in comments are not counted",
        "",
    ];
    assert_eq!(checked(b"# a rule\n@f { ", 1), expected.join("\n"));
}

#[test]
fn blocks_and_edges_as_graphviz() {
    let text = b"@f(a: int): int { .s: br q .s .t; .t: ret a; .u: br a .t .t; } @g { nop; }";
    let expected = r#"digraph {
  graph [fontname=monospace];
  node [shape=box, fontname=monospace];
  edge [fontname=monospace];
  subgraph cluster_0 {
    label="@f(a: int): int";
    f0b0 [label="block 0 .s\lbr q .s .t\l"];
    f0b1 [label="block 1 .t\lret a\l"];
    f0b2 [label="block 2 .u\lbr a .t .t\l", style=dashed, color=gray, fontcolor=gray];
    f0b0 -> f0b0 [label=true, color=darkgreen, fontcolor=darkgreen];
    f0b0 -> f0b1 [label=false, color=firebrick, fontcolor=firebrick, arrowhead=empty];
    f0b2 -> f0b1 [label=true, color=gray, fontcolor=gray];
    f0b2 -> f0b1 [label=false, color=gray, fontcolor=gray, arrowhead=empty];
  }
  subgraph cluster_1 {
    label="@g";
    f1b0 [label="block 0\lnop\lret (added)\l"];
  }
}
"#;
    let (graph, warnings) = warned(&["check", "--dot", "-"], text, 0);
    assert_eq!(graph, expected);
    assert_eq!(warnings.matches(": warning: ").count(), 2, "{warnings}");
    let refused = run(&["check", "--dot", "-"], b"@f { }");
    assert_eq!((status(&refused), out(&refused)), (1, ""), "nothing for Graphviz");
    assert!(err(&refused).starts_with("-:1:1: refused 22: [line 1] Error : empty block.\n 1 | @f { }\n"));
}

// ---- a recheck for a person --------------------------------------------------------------------------------------------

const OLD: &[u8] = b"# Two rules. A comment's newline isn't counted.
@limit: int {
  l: int = const -2;
  ret l;
}

@start(t: int): bool {
  b: bool = const true;
  ret b;
}
@limit: int { m: int = const 0; ret m; }
";

/// The whole output for a new text on standard input, in the place of a function of the text above.
fn rechecked(file: &str, function: &str, new: &[u8], expected_status: i32) -> String {
    let old = Scratch::new(file, OLD);
    answer(&["recheck", old.name(), function, "-"], new, expected_status)
}

#[test]
fn an_accepted_function() {
    let new = b"@start(hour: int): bool {
  l: int = call @limit;
  br hour .a .b;
.a:
  jmp .b;
.b:
  c: bool = lt hour l;
  ret c;
}";
    let expected = "\
@start(hour: int): bool
  block 0: to 1, 2
    l:int = call @limit
    br hour .a .b
  block 1 .a: from 0; to 2
    jmp .b
  block 2 .b: from 0, 1
    c:bool = lt hour:int l:int
    ret c

-: accepted: 1 function, 3 blocks, 5 operations
";
    // By its name with and without the sigil, and by its number.
    for (at, function) in ["@start", "start", "1", "01"].into_iter().enumerate() {
        assert_eq!(rechecked(&format!("accepted-{at}.bril"), function, new, 0), expected);
    }
    // It prints what check prints of the function where that stands by itself, and calls itself alone.
    let alone = b"@start(hour: int): bool { c: bool = call @start hour; ret c; }";
    assert_eq!(rechecked("alone.bril", "start", alone, 0), checked(alone, 0));
}

#[test]
fn old_or_new_may_be_standard_input() {
    let (old, new) =
        (Scratch::new("old.bril", OLD), Scratch::new("new.bril", b"@limit: int { x: int = const 7; ret x; }"));
    let expected = |name: &str| {
        format!(
            "@limit: int\n  block 0\n    x:int = const 7\n    ret x\n\n{name}: accepted: 1 function, 1 block, 2 operations\n"
        )
    };
    // Of two functions of a name, each has its number.
    for function in ["limit", "0", "2"] {
        assert_eq!(answer(&["recheck", old.name(), function, new.name()], b"", 0), expected(new.name()));
        assert_eq!(answer(&["recheck", "-", function, new.name()], OLD, 0), expected(new.name()));
        let new = b"@limit: int { x: int = const 7; ret x; }";
        assert_eq!(answer(&["recheck", old.name(), function, "-"], new, 0), expected("-"));
        assert_eq!(answer(&["recheck", "--", old.name(), function, "-"], new, 0), expected("-"));
    }
}

/// The message's line is that of the edited text; LINE and COLUMN are the new file's.
#[test]
fn a_refused_function() {
    let expected = "\
-:2:13: refused 17: [line 7] Error at 'call': 'int' type expected; 'bool' found
 2 |   b: bool = call @limit;
   |             ^
 note: the message's line 7 is line 2 of the new file: the function that is replaced is on line 6
";
    let new = b"@start(t: int): bool {\n  b: bool = call @limit;\n  ret b;\n}";
    assert_eq!(rechecked("refused-function.bril", "start", new, 1), expected);
    let expected = "\
-:3:4: refused 3: [line 6] Error : Unexpected token: '$'.
 3 | */ $
   |    ^
 note: the message's line 6 is line 3 of the new file: the function that is replaced is on line 6, and newlines in \
comments are not counted
";
    assert_eq!(rechecked("refused-comments.bril", "start", b"@start # one\n/* two\n*/ $", 1), expected);
    // The first function stands on line 1 by the count, so there is nothing to tell of lines.
    let expected = "\
-:2:10: refused 16: [line 2] Error at '@nobody': Undefined identifier.
 2 | x: int = call @nobody; }
   |          ^
-:2:15: note: no function is named '@nobody'
 2 | x: int = call @nobody; }
   |               ^~~~~~~
";
    assert_eq!(rechecked("refused-first.bril", "0", b"@limit: int {\nx: int = call @nobody; }", 1), expected);
}

/// What a person wants to know of the numbers that recheck alone has.
#[test]
fn a_function_that_is_none_or_another() {
    let newline = "\
-:1:1: refused 40: [line 1] Error : not one function.
 1 | @limit: int { ret x; }
   | ^
 note: a new file runs from a function's name to its closing brace, and not even a newline stands behind it
";
    assert_eq!(rechecked("newline.bril", "limit", b"@limit: int { ret x; }\n", 1), newline);
    let second = "\
-:2:1: refused 40: [line 2] Error : not one function.
 2 | @g { nop; }
   | ^
";
    let new = b"@limit: int { .l: jmp .l; }\n@g { nop; }";
    assert_eq!(rechecked("second.bril", "limit", new, 1), second);
    let changed = "\
-:1:1: refused 41: [line 6] Error : header changed.
 1 | @start(t: int): int { ret t; }
   | ^
 note: the message's line 6 is line 1 of the new file: the function that is replaced is on line 6
 note: the function that is replaced is @start(t: int): bool; its name and types must stay
";
    assert_eq!(rechecked("changed.bril", "start", b"@start(t: int): int { ret t; }", 1), changed);
    let table = "\
-: refused 42: [line 0] Error : bad header table.
 note: the old file has 3 functions, numbered from 0
";
    for (at, number) in ["3", "64", "4294967296", "18446744073709551616"].into_iter().enumerate() {
        assert_eq!(rechecked(&format!("table-{at}.bril"), number, b"@start", 1), table);
    }
    let ascii = "\
-:1:1: refused 1: [line 6] Error : Only ASCII input is supported.
-:2:3: note: this is the first byte above 127
 2 | # \\xc3\\xa9
   |   ^
";
    assert_eq!(rechecked("ascii.bril", "start", "x\n# é".as_bytes(), 1), ascii);
    let too_long = "\
-: refused 31: [line 0] Error : too many bytes.
 note: the text has more than 16384 bytes
";
    assert_eq!(rechecked("long.bril", "start", &b" ".repeat(20_000), 1), too_long);
}

/// The old text's refusal is check's, with its exit status; the function isn't looked for, nor is the new text read as
/// one.
#[test]
fn an_old_text_that_is_refused() {
    let old = Scratch::new("old-refused.bril", b"@f {\n  ret x;\n}\n");
    let by_check = run(&["check", old.name()], b"");
    for function in ["f", "nobody", "7"] {
        let output = run(&["recheck", old.name(), function, "-"], b"$");
        assert_eq!((status(&output), err(&output)), (status(&by_check), ""));
        let note = " note: this is the old file, which must be accepted as it is; the new one was not looked at\n";
        assert_eq!(out(&output), format!("{}{note}", out(&by_check)));
        assert!(out(&output).starts_with(&format!("{}:2:3: refused 16: [line 2]", old.name())));
    }
    let line = answer(&["recheck", "--json", old.name(), "f", "-"], b"$", 1);
    let expected = answer(&["check", "--json", old.name()], b"", 1).replace("}\n", ",\"old\":true}\n");
    assert_eq!(line, expected);
    assert!(
        line.ends_with("Undefined identifier.\\u000a\",\"file_line\":2,\"file_column\":3,\"old\":true}\n"),
        "{line}"
    );
    // Of a text that is too long no more is kept than shows it.
    let too_long = answer(&["recheck", "--json", "-", "f", old.name()], &b" ".repeat(100_000), 1);
    assert!(too_long.starts_with(r#"{"file":"-","number":31,"line":0,"place":0,"#), "{too_long}");
    assert!(too_long.ends_with("\"old\":true}\n"), "{too_long}");
}

// ---- JSON --------------------------------------------------------------------------------------------------------------

#[test]
fn json_of_an_accepted_text() {
    let expected = concat!(
        r#"{"file":"-","number":0,"line":0,"place":0,"message":"","tokens":[["global",0,1,0],["{",null,1,3],"#,
        r#"["nop",null,1,5],[";",null,1,8],["}",null,1,10],["END_OF_FILE",null,1,11]],"names":["@f"],"warnings":[]}"#,
        "\n"
    );
    assert_eq!(json(b"@f { nop; }", 0), expected);
    assert!(json(b"x -2147483648", 0).contains(r#"[["local",0,1,0],["integer",-2147483648,1,2],"#));
}

#[test]
fn json_of_a_refused_text() {
    let message = r"[line 1] Error : Unexpected token: '\u0000'.\u000a";
    let place = r#""number":3,"line":1,"place":3"#;
    let expected = format!(r#"{{"file":"-",{place},"message":"{message}","file_line":2,"file_column":1}}"#);
    assert_eq!(json(b"#x\n\0", 1).trim_end(), expected);
    assert!(json(&b" ".repeat(16_385), 1).ends_with(",\"file_line\":null,\"file_column\":null}\n"));
    assert!(json(b"\"", 1).contains(r#"'\"'."#));
    assert!(json(b"\\", 1).contains(r"'\\'."));
    assert!(json(b"\x7f", 1).contains(r"'\u007f'."));
}

#[test]
fn json_of_a_checked_text() {
    let text = b"@f(a: int): int { .l: b: int = call @f a; br c .l .m; .m: ret b; }";
    let line = answer(&["check", "--json", "-"], text, 0);
    let (front, functions) = line.split_once(r#","functions":"#).expect("functions");
    let read = json(text, 0);
    assert_eq!(Some((front, "[]}\n")), read.split_once(",\"warnings\":"), "the tokens and names are those of read");
    let expected = concat!(
        r#"[{"token":0,"name":0,"line":1,"name_place":0,"name_length":2,"formals":[[1,"int"]],"ret":"int","types":["int"],"#,
        r#""type":0,"labels":[[2,9,0],[5,24,1]],"end_token":29,"end_place":65,"blocks":["#,
        r#"{"ops":[{"kind":"call","token":15,"operator":null,"value":null,"result":[3,"int"],"callee":[0,"fn 0"],"#,
        r#""operands":[[1,"int"]],"labels":[],"added":false},"#,
        r#"{"kind":"br","token":19,"operator":null,"value":null,"result":null,"callee":null,"#,
        r#""operands":[[4,"placeholder"]],"labels":[2,5],"added":false}],"#,
        r#""succs":[0,1],"preds":[0],"dead":false},"#,
        r#"{"ops":[{"kind":"ret","token":26,"operator":null,"value":null,"result":null,"callee":null,"#,
        r#""operands":[[3,"placeholder"]],"labels":[],"added":false}],"#,
        r#""succs":[],"preds":[0],"dead":false}]}],"warnings":[{"kind":"never-set","place":45,"file_line":1,"file_column":46,"#,
        r#""message":"no operation of @f sets the condition 'c', and no formal is named so"}]}"#,
        "\n"
    );
    assert_eq!(functions, expected);
    let refused = answer(&["check", "--json", "-"], b"@f { ret x; }", 1);
    let message = r"[line 1] Error at 'x': Undefined identifier.\u000a";
    let expected =
        format!(r#"{{"file":"-","number":16,"line":1,"place":5,"message":"{message}","file_line":1,"file_column":6}}"#);
    assert_eq!(refused.trim_end(), expected);
}

/// The form of check, of the new text: lines, and the numbers of function types, are the old one's.
#[test]
fn json_of_a_rechecked_function() {
    let old = Scratch::new("json-old.bril", b"@g { nop; }\n@f(a: int): int { ret a; }");
    let new = b"@f(a: int): int { call @g; ret a; }";
    let expected = concat!(
        r#"{"file":"-","number":0,"line":0,"place":0,"message":"","tokens":[["global",0,2,0],["(",null,2,2],["local",1,2,3],"#,
        r#"[":",null,2,4],["int",null,2,6],[")",null,2,9],[":",null,2,10],["int",null,2,12],["{",null,2,16],"#,
        r#"["call",null,2,18],["global",2,2,23],[";",null,2,25],["ret",null,2,27],["local",1,2,31],[";",null,2,32],"#,
        r#"["}",null,2,34],["END_OF_FILE",null,2,35]],"names":["@f","a","@g"],"functions":["#,
        r#"{"token":0,"name":0,"line":2,"name_place":0,"name_length":2,"formals":[[1,"int"]],"ret":"int","types":["int"],"#,
        r#""type":1,"labels":[],"end_token":15,"end_place":34,"blocks":["#,
        r#"{"ops":[{"kind":"call","token":9,"operator":null,"value":null,"result":null,"callee":[2,"fn 0"],"#,
        r#""operands":[],"labels":[],"added":false},"#,
        r#"{"kind":"ret","token":12,"operator":null,"value":null,"result":null,"callee":null,"#,
        r#""operands":[[1,"placeholder"]],"labels":[],"added":false}],"#,
        r#""succs":[],"preds":[],"dead":false}]}],"warnings":[]}"#,
        "\n"
    );
    assert_eq!(answer(&["recheck", "--json", old.name(), "f", "-"], new, 0), expected);
    let refused = answer(&["recheck", old.name(), "1", "-", "--json"], b"@f { ret; }", 1);
    let place = r#""number":41,"line":2,"place":0"#;
    let message = r"[line 2] Error : header changed.\u000a";
    let expected = format!(r#"{{"file":"-",{place},"message":"{message}","file_line":1,"file_column":1}}"#);
    assert_eq!(refused.trim_end(), expected);
}

// ---- streams -----------------------------------------------------------------------------------------------------------

fn stream(texts: &[Vec<u8>]) -> Vec<u8> {
    texts.iter().flat_map(|text| [text.len().to_string().as_bytes(), b"\n", text].concat()).collect()
}

/// The same of checked texts, every field.
#[test]
fn a_stream_of_checks_answers_every_text() {
    let texts: Vec<Vec<u8>> = texts::generated(Depth::Check, 2, 0..3000).chain(edges::limits_of_check()).collect();
    let output = run(&["check", "--json", "--stream"], &stream(&texts));
    assert_eq!((status(&output), err(&output)), (0, ""));
    let lines: Vec<&str> = out(&output).lines().collect();
    assert_eq!(lines.len(), texts.len());
    let mut reader = Reader::new();
    for (line, text) in lines.iter().zip(&texts) {
        let (line, said) = (Json::parse(line), by_checker(&mut reader, text));
        assert_same(&line, &said);
        if let Said::Accepted { tokens, functions, .. } = &said {
            let expected = functions.iter().map(|function| function_json(tokens, function)).collect();
            assert_eq!(line.get("functions"), Some(&Json::List(expected)));
        }
    }
}

/// The same of rechecks: many functions, numbers that no function has, and old texts that are refused.
#[test]
fn a_stream_of_rechecks_answers_each() {
    let edits: Vec<Edit> = edits::generated(2, 0..600).collect();
    let asked: Vec<(&[u8], usize, &[u8])> = edits
        .iter()
        .flat_map(|Edit { old, number, new, .. }| {
            let odd = match number % 5 {
                0 => (&old[..], number + 64, &new[..]),
                // A new text of its own is most times refused, since it calls others.
                _ => (&new[..], *number, &old[..]),
            };
            [(&old[..], *number, &new[..]), odd]
        })
        .collect();
    let input: Vec<u8> = asked.iter().flat_map(|(old, number, new)| frame(old, &number.to_string(), new)).collect();
    let output = run(&["recheck", "--json", "--stream"], &input);
    assert_eq!((status(&output), err(&output)), (0, ""));
    let lines: Vec<&str> = out(&output).lines().collect();
    assert_eq!(lines.len(), asked.len());
    let mut reader = Reader::new();
    let (mut accepted, mut refused, mut old_refused) = (0, 0, 0);
    for (line, (old, number, new)) in lines.iter().zip(&asked) {
        let line = Json::parse(line);
        let headers = match reader.check(old) {
            Ok(unit) => unit.headers(),
            Err(_) => {
                assert_same(&line, &by_checker(&mut reader, old));
                assert_eq!(line.get("old"), Some(&Json::Bool(true)));
                old_refused += 1;
                continue;
            }
        };
        let said = by_rechecker(&mut reader, &headers, *number, new);
        assert_same(&line, &said);
        assert_eq!(line.get("old"), None);
        match &said {
            Said::Accepted { tokens, functions, .. } => {
                let expected = functions.iter().map(|function| function_json(tokens, function)).collect();
                assert_eq!(line.get("functions"), Some(&Json::List(expected)));
                accepted += 1;
            }
            Said::Refused { .. } => refused += 1,
        }
    }
    assert!(accepted > 100 && refused > 100 && old_refused > 100, "{accepted}, {refused}, {old_refused}");
}

/// A recheck as a stream has it.
fn frame(old: &[u8], number: &str, new: &[u8]) -> Vec<u8> {
    let length = |text: &[u8]| format!("{}\n", text.len()).into_bytes();
    [&length(old)[..], old, number.as_bytes(), b"\n", &length(new), new].concat()
}

#[test]
fn a_stream_of_rechecks_goes_on() {
    let (old, new) = (&b"@f { nop; }"[..], &b"@f { ret; }"[..]);
    let long = b" ".repeat(300_000);
    let input = [
        frame(old, "0", new),
        frame(&long, "0", new),
        frame(old, "18446744073709551615", new),
        frame(old, "4294967296", new),
        frame(old, "00", &long),
        frame(b"", "0", new),
        frame(old, "0", b""),
    ]
    .concat();
    let output = run(&["recheck", "--json", "--stream"], &input);
    assert_eq!((status(&output), err(&output)), (0, ""));
    let fields = out(&output).lines().map(|line| {
        let line = Json::parse(line);
        (line.get("number").expect("a number").number(), line.get("old").is_some())
    });
    let expected = [(0, false), (31, true), (42, false), (42, false), (31, false), (42, false), (40, false)];
    assert_eq!(fields.collect::<Vec<_>>(), expected);
    let output = run(&["recheck", "--json", "--stream"], b"");
    assert_eq!((status(&output), out(&output), err(&output)), (0, "", ""));
}

#[test]
fn a_bad_stream_of_rechecks_is_2_after_what_was_whole() {
    let whole = [frame(b"@f { nop; }", "0", b"@f { ret; }"), frame(b"x", "0", b"y")].concat();
    for (rest, why) in [
        (&b"x"[..], "the old one: it has no length"),
        (b"\n", "the old one: it has no length"),
        (b"3", "the old one: it has no length"),
        (b"3\nab", "the old one: the input ends after 2 of its 3 bytes"),
        (b"2\nab", "it has no function's number"),
        (b"2\nab\n", "it has no function's number"),
        (b"2\nab0", "it has no function's number"),
        (b"2\nab-1\n2\nab", "it has no function's number"),
        (b"2\nab+1\n2\nab", "it has no function's number"),
        (b"2\nab@f\n2\nab", "it has no function's number"),
        (b"2\nab18446744073709551616\n2\nab", "it has no function's number"),
        (b"2\nab0\n", "it has no length"),
        (b"2\nab0\n2", "it has no length"),
        (b"2\nab0\nab", "it has no length"),
        (b"2\nab0\n3\nab", "the input ends after 2 of its 3 bytes"),
        (b"2\nab0\n99999\nab", "the input ends after 2 of its 99999 bytes"),
    ] {
        let output = run(&["recheck", "--json", "--stream"], &[&whole[..], rest].concat());
        assert_eq!(status(&output), 2);
        assert_eq!(out(&output).lines().count(), 2, "what was whole is answered");
        assert!(err(&output).starts_with(&format!("pitchsleet: standard input, text 3: {why}")), "{}", err(&output));
        assert_eq!(err(&output).lines().count(), 1);
    }
}

fn object<const COUNT: usize>(members: [(&str, Json); COUNT]) -> Json {
    Json::Object(members.map(|(key, value)| (key.to_owned(), value)).into())
}

fn numbers(numbers: &[usize]) -> Json {
    Json::List(numbers.iter().map(|&number| Json::Number(number as i64)).collect())
}

fn function_json(tokens: &[SaidToken], function: &SaidFunction) -> Json {
    let number = |number: usize| Json::Number(number as i64);
    let words = function.formals.iter().map(|formal| Json::Text(formal.ty.long_word()));
    let labels = function.labels.iter().map(|label| numbers(&[label.name, label.token, label.block]));
    object([
        ("token", number(function.token)),
        ("name", number(function.name)),
        ("line", number(function.line as usize)),
        ("name_place", number(function.place)),
        ("name_length", number(function.length)),
        ("formals", Json::List(function.formals.iter().map(variable_json).collect())),
        ("ret", Json::Text(function.result.long_word())),
        ("types", Json::List(words.collect())),
        ("type", number(function.type_number)),
        ("labels", Json::List(labels.collect())),
        ("end_token", number(function.end_token)),
        ("end_place", number(function.end_place)),
        ("blocks", Json::List(function.blocks.iter().map(|block| block_json(tokens, block)).collect())),
    ])
}

fn block_json(tokens: &[SaidToken], block: &SaidBlock) -> Json {
    object([
        ("ops", Json::List(block.operations.iter().map(|operation| operation_json(tokens, operation)).collect())),
        ("succs", numbers(&block.successors)),
        ("preds", numbers(&block.predecessors)),
        ("dead", Json::Bool(block.is_dead)),
    ])
}

/// An operation's operator, a constant's value and the mark of an added `ret` are told by its token.
fn operation_json(tokens: &[SaidToken], operation: &SaidOperation) -> Json {
    let token = &tokens[operation.token];
    let operator = match operation.kind {
        "binary" | "unary" => Json::Text(token.kind.to_owned()),
        _ => Json::Null,
    };
    let value = match (operation.kind, token.kind) {
        ("const", "integer") => token.value.map_or(Json::Null, Json::Number),
        ("const", word) => Json::Bool(word == "true"),
        _ => Json::Null,
    };
    let optional = |variable: &Option<SaidVariable>| variable.as_ref().map_or(Json::Null, variable_json);
    object([
        ("kind", Json::Text(operation.kind.to_owned())),
        ("token", Json::Number(operation.token as i64)),
        ("operator", operator),
        ("value", value),
        ("result", optional(&operation.result)),
        ("callee", optional(&operation.callee)),
        ("operands", Json::List(operation.operands.iter().map(variable_json).collect())),
        ("labels", numbers(&operation.labels)),
        ("added", Json::Bool(operation.kind == "ret" && token.kind != "ret")),
    ])
}

fn variable_json(variable: &SaidVariable) -> Json {
    Json::List(vec![Json::Number(variable.name as i64), Json::Text(variable.ty.long_word())])
}

/// Each line of a long stream, against what the library says.
#[test]
fn a_stream_answers_every_text() {
    let texts: Vec<Vec<u8>> = texts::generated(Depth::Read, 2, 0..3000).chain(edges::limits()).collect();
    let output = run(&["read", "--json", "--stream"], &stream(&texts));
    assert_eq!((status(&output), err(&output)), (0, ""));
    let lines: Vec<&str> = out(&output).lines().collect();
    assert_eq!(lines.len(), texts.len());
    let mut reader = Reader::new();
    for (line, text) in lines.iter().zip(&texts) {
        assert_same(&Json::parse(line), &by_reader(&mut reader, text));
    }
}

fn assert_same(line: &Json, said: &Said) {
    let number = |key: &str| line.get(key).expect("a field").number();
    let message = line.get("message").expect("a message").bytes();
    match said {
        Said::Refused { number: n, line: l, place, message: m } => {
            assert_eq!((number("number"), number("line"), number("place")), ((*n).into(), (*l).into(), *place as i64));
            assert_eq!(&message, m);
            assert_eq!(line.get("tokens"), None);
        }
        Said::Accepted { tokens, names, .. } => {
            assert_eq!((number("number"), number("line"), number("place"), message.len()), (0, 0, 0, 0));
            let expected: Vec<Json> = tokens
                .iter()
                .map(|token| {
                    Json::List(vec![
                        Json::Text(token.kind.to_owned()),
                        token.value.map_or(Json::Null, Json::Number),
                        Json::Number(token.line.into()),
                        Json::Number(token.place as i64),
                    ])
                })
                .collect();
            assert_eq!(line.get("tokens"), Some(&Json::List(expected)));
            let names: Vec<Json> = names.iter().map(|name| Json::Text(name.spelling.clone())).collect();
            assert_eq!(line.get("names"), Some(&Json::List(names)));
        }
    }
}

/// Another program may wait for each answer before it asks on.
#[test]
fn a_stream_answers_before_it_waits() {
    answers_each("read", ["x", "$", ""].map(|text| format!("{}\n{text}", text.len()).into_bytes()));
    let rechecks: [(&[u8], &[u8]); 3] = [(b"@f{ret;}", b"@f{nop;}"), (b"$", b""), (b"@f{ret;}", b"$")];
    answers_each("recheck", rechecks.map(|(old, new)| frame(old, "0", new)));
}

fn answers_each(command: &str, asked: [Vec<u8>; 3]) {
    let mut process = Command::new(TOOL)
        .args([command, "--json", "--stream"])
        .stdin(Stdio::piped())
        .stdout(Stdio::piped())
        .spawn()
        .expect("the tool runs");
    let mut input = process.stdin.take().expect("it is piped");
    let mut output = BufReader::new(process.stdout.take().expect("it is piped"));
    for asked in asked {
        input.write_all(&asked).expect("the tool listens");
        let mut line = String::new();
        output.read_line(&mut line).expect("the tool answers");
        assert!(line.ends_with("}\n"), "{line}");
    }
    drop(input);
    assert!(process.wait().expect("the tool ends").success());
}

#[test]
fn a_bad_stream_is_2_after_what_was_whole() {
    let whole = b"1\nx2\n$$";
    for (rest, why) in [
        (&b"3\nab"[..], "text 3: the input ends after 2 of its 3 bytes"),
        (b"99999\nab", "text 3: the input ends after 2 of its 99999 bytes"),
        (b"5", "text 3: it has no length"),
        (b"\n", "text 3: it has no length"),
        (b"five\nabcde", "text 3: it has no length"),
        (b"-1\n", "text 3: it has no length"),
        (b"+1\na", "text 3: it has no length"),
        (b" 1\na", "text 3: it has no length"),
        (b"99999999999999999999\n", "text 3: it has no length"),
        (b"000000000000000000000000000001\na", "text 3: it has no length"),
    ] {
        let output = run(&["read", "--json", "--stream"], &[whole, rest].concat());
        assert_eq!(status(&output), 2);
        assert_eq!(out(&output).lines().count(), 2, "what was whole is answered");
        assert!(err(&output).starts_with(&format!("pitchsleet: standard input, {why}")), "{}", err(&output));
        assert_eq!(err(&output).lines().count(), 1);
    }
}

#[test]
fn an_empty_stream_is_whole() {
    let output = run(&["read", "--json", "--stream"], b"");
    assert_eq!((status(&output), out(&output), err(&output)), (0, "", ""));
}

/// A text that is far too long is passed over, and the next one is answered.
#[test]
fn a_stream_goes_on_after_too_long_a_text() {
    let texts = [b" ".repeat(3_000_000), b"x".to_vec()];
    let output = run(&["read", "--json", "--stream"], &stream(&texts));
    let lines: Vec<&str> = out(&output).lines().collect();
    assert!(lines[0].starts_with(r#"{"number":31,"line":0,"place":0,"#));
    assert!(lines[1].contains(r#"[["local",0,1,0],["END_OF_FILE",null,1,1]]"#));
}

// ---- usage -------------------------------------------------------------------------------------------------------------

#[test]
fn what_can_t_be_run_is_2_with_one_line() {
    for words in [
        &[][..],
        &["run", "x"],
        &["read"],
        &["check"],
        &["check", "--dot"],
        &["check", "--dot", "--json", "-"],
        &["check", "--dot", "--stream"],
        &["check", "--stream"],
        &["check", "--json", "--stream", "-"],
        &["check", "--html"],
        &["check", "--html", "--dot", "-"],
        &["check", "--html", "--stream"],
        &["check", "--json", "--quiet", "-"],
        &["check", "--json", "--stream", "--deny-warnings"],
        &["check", "-", "-"],
        &["--quiet", "check", "-"],
        &["check", "no/such/file"],
        &["recheck"],
        &["recheck", "a"],
        &["recheck", "a", "f"],
        &["recheck", "a", "f", "b", "c"],
        &["recheck", "-", "f", "-"],
        &["recheck", "no/such/file", "f", "-"],
        &["recheck", "-", "f", "no/such/file"],
        &["recheck", "-", "f", "Cargo.toml"],
        &["recheck", "-", "", "Cargo.toml"],
        &["recheck", "-", "\u{1b}[31m", "Cargo.toml"],
        &["recheck", "--dot", "a", "f", "b"],
        &["recheck", "--stream"],
        &["recheck", "--json", "--stream", "a"],
        &["recheck", "--json", "--stream", "a", "f", "b"],
        &["read", "--dot", "-"],
        &["read", "--json"],
        &["read", "--stream"],
        &["read", "--stream", "-"],
        &["read", "--json", "--stream", "-"],
        &["read", "--html", "-"],
        &["read", "--color", "a"],
        &["read", "--color=", "a"],
        &["read", "a", "--color"],
        &["read", "-x"],
        &["read", "\u{1b}[31m"],
        &["read", "no/such/file"],
        &["read", "--", "--no-such-file"],
        &["read", "."],
    ] {
        let output = run(words, b"");
        assert_eq!((status(&output), out(&output)), (2, ""), "{words:?}");
        assert!(err(&output).starts_with("pitchsleet: "), "{words:?}: {}", err(&output));
        assert_eq!(err(&output).lines().count(), 1, "{words:?}: {}", err(&output));
        assert!(!err(&output).contains('\u{1b}'));
    }
}

#[test]
fn help_and_version() {
    for words in [
        &["--help"][..],
        &["-h"],
        &["help"],
        &["help", "check"],
        &["read", "--help"],
        &["read", "x", "-h"],
        &["check", "--dot", "-h"],
        &["recheck", "-h"],
    ] {
        let output = run(words, b"");
        assert_eq!((status(&output), err(&output)), (0, ""));
        for command in ["read FILE..", "check FILE..", "recheck OLD FUNCTION NEW", "help"] {
            assert!(out(&output).contains(&format!("pitchsleet {command}")), "{command}");
        }
        assert!(out(&output).contains("not in a comment"), "it says how LINE is counted");
    }
    let output = run(&["--version"], b"");
    assert_eq!((status(&output), out(&output)), (0, concat!("pitchsleet ", env!("CARGO_PKG_VERSION"), "\n")));
}

#[test]
fn options_stand_in_any_order() {
    let file = Scratch::new("order.bril", b"x");
    let expected = json(b"x", 0).replace("\"file\":\"-\"", &format!("\"file\":\"{}\"", file.name()));
    for words in
        [&["read", "--json", file.name()][..], &["read", file.name(), "--json"], &["read", "--json", "--", file.name()]]
    {
        let output = run(words, b"");
        assert_eq!((status(&output), out(&output)), (0, expected.as_str()));
    }
}

/// `pitchsleet read FILE | head` closes the output early: no panic, and nothing is said.
#[test]
fn a_closed_output_is_no_panic() {
    let mut process = Command::new(TOOL)
        .args(["read", "--json", "--stream"])
        .stdin(Stdio::piped())
        .stdout(Stdio::piped())
        .stderr(Stdio::piped())
        .spawn()
        .expect("the tool runs");
    drop(process.stdout.take());
    let mut input = process.stdin.take().expect("it is piped");
    let texts = stream(&vec![b"x ".repeat(1000); 100]);
    // It ends before it has read all.
    let _ = input.write_all(&texts);
    drop(input);
    let output = process.wait_with_output().expect("the tool ends");
    assert_eq!((status(&output), err(&output)), (0, ""));
}

//! What the tool tells of a refusal beside its message.
mod tool;

use tool::answer;

/// What is said of a refused text behind its first line.
fn behind(text: &str) -> String {
    let said = answer(&["check", "-"], text.as_bytes(), 1);
    said.split_once('\n').expect("a line").1.to_owned()
}

#[test]
fn which_name_a_number_is() {
    let said = answer(&["check", "-"], b"@f {\n  frost limit;\n}", 1);
    let expected = "\
-:2:9: refused 5: [line 2] Error at 'local_2': ':' expected.
 2 |   frost limit;
   |         ^
 note: local_2 is 'limit'
";
    assert_eq!(said, expected);
    assert!(behind("@f { jmp @g; }").ends_with("\n note: global_1 is '@g'\n"));
    assert!(behind("@f { x: .int = const 5; }").ends_with("\n note: label_2 is '.int'\n"));
    // A word or a sign is itself; and so is a name that a message spells, or one that is spelled as its number.
    for text in
        ["@f { x: int = local_2; }", "@f { x: int = nop; }", "@f }", "@f { .a: nop; .a: nop; }", "@f { jmp .local_1; }"]
    {
        assert!(!behind(text).contains("note:"), "{text}");
    }
}

#[test]
fn which_block_is_empty() {
    let empty = |text: &str, place: &str, words: &str| {
        let said = behind(text);
        assert!(said.contains(&format!("-:{place}: note: {words}\n")), "{text}: {said}");
    };
    empty("@f { }", "1:4", "the function has no operation");
    empty("@f(a: int):\nint {\n}", "2:5", "the function has no operation");
    empty("@f { nop; .a: .b: nop; }", "1:11", "the block '.a' has no operation");
    empty("@f { .s: .t: nop; .a: .b: nop; .c: .d: nop; }", "1:19", "the block '.a' has no operation");
    empty("@g { nop; }\n@f(a: int) { br a .a .b; .a:\n.b: ret; }", "2:26", "the block '.a' has no operation");
    let line = " 1 | @f { nop; .a: .b: nop; }\n";
    let expected = [line, "   | ^\n-:1:11: note: the block '.a' has no operation\n", line, "   |           ^~\n"];
    assert_eq!(behind("@f { nop; .a: .b: nop; }"), expected.concat());
}

#[test]
fn which_name_is_undefined() {
    let line = " 2 |   warm: bool = lt limit least;\n";
    let note = "-:2:25: note: no operation of the function sets 'least', and no formal is named so\n";
    let expected = [line, "   |                ^\n", note, line, "   |                         ^~~~~\n"].concat();
    assert_eq!(behind("@f(limit: int) {\n  warm: bool = lt limit least;\n}"), expected);
    let nowhere = "no operation of the function sets 'x', and no formal is named so";
    let later = "only this operation, or one that is checked after it, sets 'x'";
    for (text, place, words) in [
        ("@f: int { ret x; }", "1:15", nowhere),
        ("@f { y: bool = not\n x; }", "2:2", nowhere),
        ("@g(x: int) { y: int = const 1; } @f { call @g x; } @h(x: int) { nop; }", "1:47", nowhere),
        ("@f(b: int) { y: int = add b x; }", "1:29", nowhere),
        ("@f { x: int = id x; }", "1:18", later),
        ("@g { nop; } @f { y: int = id x; x: int = const 1; }", "1:30", later),
        // The block .c may well run before .b, but it is checked after it.
        ("@f(c: bool) { .a: br c .b .c; .b: y: int = id x; jmp .a; .c: x: int = const 1; jmp .a; }", "1:47", later),
    ] {
        let said = behind(text);
        assert!(said.contains(&format!("\n-:{place}: note: {words}\n")), "{text}: {said}");
    }
    let call = behind("@f { call\n@nobody; }");
    assert!(call.contains("\n-:2:1: note: no function is named '@nobody'\n 2 | @nobody; }\n"), "{call}");
}

#[test]
fn that_a_number_is_too_large() {
    let lines = " 1 | @f { x: int = const 2147483648; }\n   |                     ^\n";
    assert_eq!(
        behind("@f { x: int = const 2147483648; }"),
        format!("{lines} note: the largest number is 2147483647\n")
    );
}

/// Whatever part of a text is checked, it is answered, and each place that is told is one of the text's.
#[test]
fn every_place_is_in_the_text() {
    let text = "@f(a: int, b: bool): int { .s: x: int = add a a; br b .s .t; .t: print x; ret x; } @g { call @f x b; }";
    let mut refused = 0;
    for end in 0..text.len() {
        for start in [0, end / 2] {
            let output = tool::run(&["check", "-"], &text.as_bytes()[start..end]);
            if tool::status(&output) == 0 {
                continue;
            }
            refused += 1;
            let said = tool::out(&output);
            let places: Vec<&str> = said.lines().filter_map(|line| line.strip_prefix("-:1:")).collect();
            assert!(tool::status(&output) == 1 && places[0].contains(": refused "), "{start}, {end}: {said}");
            for place in places {
                let column: usize = place.split(':').next().and_then(|column| column.parse().ok()).expect("a column");
                assert!((1..=end - start + 1).contains(&column), "{start}, {end}: {said}");
            }
        }
    }
    assert!(refused > 100, "{refused}");
}

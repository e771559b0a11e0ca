//! The safe interface of rechecking: headers, spans, and what `Reader::recheck` gives for new functions, one after the
//! other.
mod support;

use pitchsleet::{Headers, OperationValue, Reader, Refusal, Type, raw};
use support::lent_cells::LentCells;
use support::records::SIZES;

/// Four functions of four types, with comments between and within. The last two stand on lines 3 and 5 of the file,
/// which are counted as 2 and 4, since the comment behind `@v` runs through a newline.
const OLD: &str = "@i(a: int): int { ret a; }
@v { nop; } # } not the end
@f(n: int, c: bool) /* { } */ {
  nop; }
/* @no { nop; } */ @b: bool {
  t: bool = const true; ret t; }
";
const I: usize = 0;
const V: usize = 1;
const F: usize = 2;
const B: usize = 3;

fn headers_of(text: &str) -> Headers {
    Reader::new().check(text.as_bytes()).expect("accepted").headers()
}

fn refused(headers: &Headers, number: usize, new: &[u8]) -> Refusal {
    Reader::new().recheck(headers, number, new).expect_err("refused")
}

/// Number, line, place and message of a refusal by the old text above.
fn refusal_of(number: usize, new: &str) -> (u32, u32, usize, String) {
    let refusal = refused(&headers_of(OLD), number, new.as_bytes());
    let message = String::from_utf8(refusal.message().to_vec()).expect("ASCII");
    (refusal.number(), refusal.line(), refusal.place(), message)
}

fn told(number: u32, line: u32, place: usize, rest: &str) -> (u32, u32, usize, String) {
    (number, line, place, format!("[line {line}] Error {rest}\n"))
}

// ---- headers and spans -------------------------------------------------------------------------------------------------

#[test]
fn headers_are_a_value_of_their_own() {
    let headers = headers_of(OLD);
    assert_eq!((headers.len(), headers.is_empty(), headers.text()), (4, false, OLD));
    assert_eq!(headers.names().collect::<Vec<_>>(), ["@i", "@v", "@f", "@b"]);
    assert_eq!(headers.names().next_back(), Some("@b"));
    assert_eq!([I, V, F, B].map(|number| headers.name(number)), ["@i", "@v", "@f", "@b"].map(Some));
    assert_eq!([I, V, F, B].map(|number| headers.line(number)), [1, 2, 2, 4].map(Some));
    assert_eq!((headers.name(4), headers.line(4), headers.name(usize::MAX)), (None, None, None));
    assert_eq!(
        ["@i", "@b", "@no", "i", "@", ""].map(|name| headers.position(name)),
        [Some(0), Some(3), None, None, None, None]
    );
    assert_eq!(format!("{headers:?}"), r#"["@i", "@v", "@f", "@b"]"#);
    assert_eq!(headers, headers.clone());
    assert_ne!(headers, headers_of("@i { nop; }"));

    let empty = headers_of("# nothing");
    assert_eq!((empty.len(), empty.is_empty(), empty.names().count(), empty.position("@f")), (0, true, 0, None));
    assert_eq!(refused(&empty, 0, b"@f { nop; }").number(), 42);
}

/// Of functions with one name the first is found, as a call would.
/// The table is what both C functions wrote, as cells and as bytes.
#[test]
fn the_table_is_what_check_wrote() {
    for text in [OLD, "", "@f { nop; }"] {
        let headers = headers_of(text);
        let (mut out, mut message) = (vec![1; raw::CHECK_OUT_BYTES], [1; raw::MESSAGE_BYTES]);
        assert_eq!(raw::check(text.as_bytes(), &mut out, &mut message).number, 0);
        assert!(headers.table() == out[raw::FUNCTIONS_OFFSET..][..raw::TABLE_BYTES]);
        let mut lent = LentCells::new(SIZES, raw::MESSAGE_BYTES);
        assert_eq!(lent.check(text.as_bytes()).number, 0);
        assert!(headers.table_cells()[..] == lent.slices[2]);
    }
}

#[test]
fn the_first_of_a_name_is_found() {
    let headers = headers_of("@a { nop; } @f { nop; } @g { nop; } @f { ret; }");
    assert_eq!(headers.names().collect::<Vec<_>>(), ["@a", "@f", "@g", "@f"]);
    assert_eq!(headers.position("@f"), Some(1));
    // Each of them may be replaced.
    let mut reader = Reader::new();
    for number in [1, 3] {
        assert!(reader.recheck(&headers, number, b"@f { call @f; }").is_ok());
    }
}

/// A name may first appear in a call: the header's is the function's own.
#[test]
fn a_name_that_was_called_before() {
    let headers = headers_of("@f {\n call @g;\n}\n@g { nop; }");
    assert_eq!((headers.names().collect::<Vec<_>>(), headers.line(1)), (vec!["@f", "@g"], Some(4)));
}

/// 64 functions, and a text of the greatest length.
#[test]
fn headers_at_the_limits() {
    let functions: String = (0..64).map(|number| format!("@f{number}(a: int) {{ nop; }}\n")).collect();
    let text = format!("{functions}{}", " ".repeat(16_384 - functions.len()));
    let headers = headers_of(&text);
    assert_eq!((headers.len(), headers.position("@f63"), headers.line(63)), (64, Some(63), Some(64)));
    let mut reader = Reader::new();
    assert!(reader.recheck(&headers, 63, b"@f63(b: int) { call @f0 b; call @f62 b; }").is_ok());
    assert_eq!(refused(&headers, 64, b"@f63(b: int) { nop; }").number(), 42);
}

#[test]
fn a_span_runs_from_the_name_to_the_brace() {
    let mut reader = Reader::new();
    let unit = reader.check(OLD.as_bytes()).expect("accepted");
    let spans: Vec<&str> = unit.functions().map(|function| &OLD[function.span()]).collect();
    assert_eq!(
        spans,
        [
            "@i(a: int): int { ret a; }", "@v { nop; }", "@f(n: int, c: bool) /* { } */ {\n  nop; }",
            "@b: bool {\n  t: bool = const true; ret t; }"
        ]
    );
    let text = "@f{ret;}";
    let unit = reader.check(text.as_bytes()).expect("accepted");
    assert_eq!(unit.function(0).map(|function| function.span()), Some(0..text.len()));
}

/// What stands there already is accepted in its own place.
#[test]
fn each_span_rechecks() {
    let called =
        "# first\n@main { /* } */ x: int = call @h x; }\n\n@h(y: int): int { # {\n ret y; // }\n}@g{ret;}# end }";
    for text in [OLD, called] {
        let mut reader = Reader::new();
        let unit = reader.check(text.as_bytes()).expect("accepted");
        let headers = unit.headers();
        let spans: Vec<_> =
            unit.functions().map(|function| (function.span(), function.line(), function.ty())).collect();
        assert_eq!(spans.len(), headers.len());
        for (number, (span, line, ty)) in spans.into_iter().enumerate() {
            let unit = reader.recheck(&headers, number, &text.as_bytes()[span.clone()]).expect("accepted");
            let function = unit.function(0).expect("one function");
            assert_eq!((unit.function_count(), function.name().spelling), (1, headers.name(number).expect("a name")));
            assert_eq!((function.span(), function.line(), function.ty()), (0..span.len(), line, ty));
        }
    }
}

// ---- answers -----------------------------------------------------------------------------------------------------------

/// Document 01's texts.
#[test]
fn texts_of_document_01() {
    let headers = headers_of("@f { nop; }");
    let mut reader = Reader::new();
    let unit = reader.recheck(&headers, 0, b"@f { ret; }").expect("accepted");
    assert_eq!((unit.function_count(), unit.tokens().len()), (1, 6));
    let refusal = refused(&headers, 0, b"@f: int { nop; }");
    assert_eq!((refusal.number(), refusal.line(), refusal.place()), (41, 1, 0));
    assert_eq!(refusal.message(), b"[line 1] Error : header changed.\n");
    assert_eq!(refusal.to_string(), "refused 41 at byte 0: [line 1] Error : header changed.");
}

/// An accepted function: tokens, names and places of the new text, lines and function types of the old one.
#[test]
fn an_accepted_function() {
    let headers = headers_of(OLD);
    let mut reader = Reader::new();
    let new =
        "@b: bool {\n  x: int = const 1; x: int = call @i x; call @v;\n  t: bool = call @b; call @f x t; ret t; }";
    let unit = reader.recheck(&headers, B, new.as_bytes()).expect("accepted");
    let function = unit.function(0).expect("a function");
    assert_eq!((unit.function_count(), function.name().spelling, function.line()), (1, "@b", 4));
    assert_eq!((function.result(), function.ty(), function.token(), function.place()), (Type::Bool, Type::Fn(3), 0, 0));
    assert_eq!((function.span(), unit.tokens().text()), (0..new.len(), new));
    let lines: Vec<u32> = unit.tokens().iter().map(|token| token.line).collect();
    assert_eq!((lines[0], lines[lines.len() - 1]), (4, 6));
    assert_eq!(unit.tokens().names().map(|name| name.spelling).collect::<Vec<_>>(), ["@b", "x", "@i", "@v", "t", "@f"]);
    let operations = function.blocks().flat_map(|block| block.operations());
    let callees: Vec<Type> = operations.filter_map(|operation| operation.callee()).map(|callee| callee.ty).collect();
    assert_eq!(callees, [Type::Fn(0), Type::Fn(1), Type::Fn(3), Type::Fn(2)]);

    let unit = reader.recheck(&headers, V, b"@v { jmp .a; .a: .b: nop; }");
    assert_eq!(unit.expect_err("an empty block").number(), 22);
    let unit = reader.recheck(&headers, V, b"@v() { br q .a .b; .a: nop; .b: nop; .c: nop; }").expect("accepted");
    let function = unit.function(0).expect("a function");
    let edges: Vec<_> =
        function.blocks().map(|b| (b.successors().to_vec(), b.predecessors().to_vec(), b.is_dead())).collect();
    assert_eq!(
        edges,
        [(vec![1, 2], vec![], false), (vec![], vec![0], false), (vec![], vec![0], false), (vec![], vec![], true)]
    );
    let last = function.blocks().next_back().and_then(|block| block.operations().next_back()).expect("an operation");
    assert!(matches!(last.value, OperationValue::Return { value: None, added: true }));
}

/// The formals' names are free.
#[test]
fn a_header_that_is_kept() {
    let headers = headers_of(OLD);
    let mut reader = Reader::new();
    for (number, new) in [
        (V, "@v() { nop; }"),
        (V, "@v/* */{ nop; }"),
        (F, "@f(x: int, y: bool) { nop; }"),
        (I, "@i(a\n: int):int { ret a; }"),
    ] {
        assert!(reader.recheck(&headers, number, new.as_bytes()).is_ok(), "{new}");
    }
}

/// 7: behind the closing brace stands something that is no function.
#[test]
fn something_behind_the_brace() {
    let global = |item: &str| format!("at '{item}': Global identifier expected.");
    assert_eq!(refusal_of(V, "@v { nop; } }"), told(7, 2, 12, &global("}")));
    assert_eq!(refusal_of(V, "@v {\nnop; }\nnop }"), told(7, 4, 12, &global("nop")));
    assert_eq!(refusal_of(B, "@b: bool { ret t; } x }"), told(7, 4, 20, &global("local_2")));
}

/// 40: the first byte begins no global, the last one is no brace, or there is a second function.
#[test]
fn not_one_function() {
    for new in [
        "", " @v { nop; }", "/**/@v { nop; }", "v { nop; }", "}", "@v { nop; } ", "@v { nop; }\n", "@v { nop; }# }",
        "@v { nop; };", "@v", "@v { nop; }/**/",
    ] {
        assert_eq!(refusal_of(V, new), told(40, 2, 0, ": not one function."), "{new}");
        assert_eq!(refusal_of(B, new), told(40, 4, 0, ": not one function."), "{new}");
    }
    assert_eq!(refusal_of(V, "@v { nop; } @w { nop; }"), told(40, 2, 12, ": not one function."));
    assert_eq!(refusal_of(V, "@v {\nnop; }\n@v { nop; }"), told(40, 4, 12, ": not one function."));
    // By then the first function's blocks and labels are resolved, and its types are not looked at.
    assert_eq!(refusal_of(V, "@v { jmp .a; } @w { nop; }").0, 14);
    assert_eq!(refusal_of(V, "@v { ret x; } @w { nop; }").0, 40);
}

/// 41: by the name, by the result, by the count of the formals, and by the type of one.
#[test]
fn a_header_that_has_changed() {
    for (number, line, new) in [
        (V, 2, "@w { nop; }"),
        (V, 2, "@vv { nop; }"),
        (V, 2, "@i { nop; }"),
        (V, 2, "@v: int { nop; }"),
        (I, 1, "@i(a: int) { nop; }"),
        (I, 1, "@i(a: int): bool { nop; }"),
        (V, 2, "@v(a: int) { nop; }"),
        (F, 2, "@f(n: int) { nop; }"),
        (F, 2, "@f(n: int, c: bool, d: bool) { nop; }"),
        (F, 2, "@f(n: int, c: int) { nop; }"),
        (F, 2, "@f(c: bool, n: int) { nop; }"),
    ] {
        assert_eq!(refusal_of(number, new), told(41, line, 0, ": header changed."), "{new}");
    }
    // A header that is none comes before, a body after; so does a formal too many.
    assert_eq!(refusal_of(V, "@w: nop { nop; }").0, 9);
    assert_eq!(refusal_of(V, "@w { ret; nop; }").0, 41);
    let formals = |count: usize| format!("@f({}n:int){{nop;}}", "n:int,".repeat(count - 1));
    assert_eq!(refusal_of(F, &formals(16)).0, 41);
    assert_eq!(refusal_of(F, &formals(17)), told(36, 2, 99, ": too many formals."));
}

/// 42: a number that no function has, also beyond 32 bits; before all that a new text may have.
#[test]
fn a_number_that_no_function_has() {
    for number in [4, 5, 64, u32::MAX as usize, u32::MAX as usize + 1, (1 << 32) + V, usize::MAX] {
        for new in ["@v { nop; }", "$", ""] {
            assert_eq!(refusal_of(number, new), told(42, 0, 0, ": bad header table."), "{number}");
        }
    }
    let too_long = vec![b' '; 16_385];
    assert_eq!(refused(&headers_of(OLD), 4, &too_long).number(), 42);
    assert_eq!(refused(&headers_of(OLD), V, &too_long).number(), 31);
}

/// Lines start at that of the function that is replaced, and places at the new text's first byte.
#[test]
fn lexical_numbers() {
    assert_eq!(refusal_of(V, "\n@v { nop; } é"), told(1, 2, 0, ": Only ASCII input is supported."));
    assert_eq!(refusal_of(B, "é"), told(1, 4, 0, ": Only ASCII input is supported."));
    assert_eq!(refusal_of(B, "@b {\n\n /* }"), told(2, 6, 7, ": Multiline comment no closed."));
    assert_eq!(refusal_of(I, "@i $"), told(3, 1, 3, ": Unexpected token: '$'."));
    assert_eq!(refusal_of(B, "@b # \n\n$"), told(3, 5, 7, ": Unexpected token: '$'."));
    assert_eq!(refusal_of(B, "@b {\nx: int = const -; }"), told(4, 5, 20, ": Expected number after '-'."));
    assert_eq!(refusal_of(B, "@b {\nx: int = const 2147483648; }"), told(43, 5, 20, ": Number out of range."));
    assert_eq!(refusal_of(B, &" ".repeat(16_385)), told(31, 0, 0, ": too many bytes."));
    let tokens = |nops: usize| format!("@v\n{{{}}}", "nop;".repeat(nops));
    assert_eq!(refusal_of(V, &tokens(2_047)), told(32, 3, 4 + 4 * 2_047, ": too many tokens."));
    assert!(Reader::new().recheck(&headers_of(OLD), V, tokens(2_046).as_bytes()).is_ok());
    let names: String = (0..1_024).map(|number| format!("print x{number};")).collect();
    let place = 4 + names.rfind('x').expect("a name");
    assert_eq!(refusal_of(V, &format!("@v {{{names}}}")), told(33, 2, place, ": too many names."));
    assert_eq!(refusal_of(F, &format!("@f\n\n.{}", "l".repeat(64))), told(34, 4, 4, ": name too long."));
}

/// Numbers of the grammar and of types, each with the line that it would have in the edited text.
#[test]
fn numbers_of_check() {
    assert_eq!(refusal_of(V, "@v { nop }"), told(5, 2, 9, "at '}': ';' expected."));
    assert_eq!(refusal_of(B, "@b: bool {\n ret x; }"), told(16, 5, 12, "at 'x': Undefined identifier."));
    assert_eq!(refusal_of(V, "@v { call @nobody; }"), told(16, 2, 5, "at '@nobody': Undefined identifier."));
    let rest = "at 'call': 'int' type expected; 'bool' found";
    assert_eq!(refusal_of(V, "@v {\n\n x: bool = call @i x; }"), told(17, 4, 17, rest));
    let rest = "at 'call': Void functions cannot return a value.";
    assert_eq!(refusal_of(V, "@v { x: int = call @f; }"), told(18, 2, 14, rest));
    let rest = "at 'call': Non-void functions must return a value.";
    assert_eq!(refusal_of(V, "@v { call @b; }"), told(19, 2, 5, rest));
    assert_eq!(refusal_of(V, "@v { call @f; }"), told(20, 2, 5, "at 'call': 2 arguments expected, got 0"));
    let rest = "at 'nop': Block terminator expected to be jump, br, or ret.";
    assert_eq!(refusal_of(B, "@b: bool { nop; }"), told(21, 4, 11, rest));
    assert_eq!(refusal_of(B, "@b: bool\n{ }"), told(22, 4, 0, ": empty block."));
}

/// The edited text is accepted where the new function is, and refused with the same number, line and place.
#[test]
fn the_edited_text_has_the_same_answer() {
    let mut reader = Reader::new();
    let headers = headers_of(OLD);
    let spans: Vec<_> = reader.check(OLD.as_bytes()).expect("accepted").functions().map(|f| f.span()).collect();
    for (number, new) in [
        (I, "@i(a: int): int {\n b: int = call @i a; ret b; }"),
        (I, "@i(a: int): int {\n b: bool = call @i a; ret b; }"),
        (V, "@v { # \n call @f; }"),
        (F, "@f(n: int, c: bool) { jmp .a; }"),
        (B, "@b: bool {\n\n nop; }"),
        (B, "@b: bool { t: bool = call @b; ret t; }"),
    ] {
        let span = spans[number].clone();
        let edited = [&OLD[..span.start], new, &OLD[span.end..]].concat();
        let fresh = reader.check(edited.as_bytes()).map(|unit| unit.function_count());
        let fresh = fresh.map_err(|refusal| (refusal.number(), refusal.line(), refusal.place()));
        let answer = reader.recheck(&headers, number, new.as_bytes()).map(|unit| unit.function_count());
        let answer = answer.map_err(|refusal| (refusal.number(), refusal.line(), refusal.place() + span.start));
        assert_eq!(answer.map(|_| 4), fresh, "{new}");
    }
}

// ---- calls -------------------------------------------------------------------------------------------------------------

#[test]
fn what_was_rechecked_before_leaves_nothing() {
    let (mut reader, headers) = (Reader::new(), headers_of(OLD));
    let long = "@f(n: int, c: bool) { .x: .y: call @f n c; br c .x .z; .z: print n; }";
    for _ in 0..3 {
        let unit = reader.recheck(&headers, F, long.as_bytes()).expect("accepted");
        assert_eq!(unit.function(0).map(|function| function.block_count()), Some(2));
        let refusal = reader.recheck(&headers, V, b"@v { ret x; }").expect_err("refused");
        assert_eq!(refusal, refused(&headers, V, b"@v { ret x; }"));
        let unit = reader.recheck(&headers, V, b"@v { ret; }").expect("accepted");
        assert_eq!((unit.function_count(), unit.tokens().len(), unit.tokens().names().len()), (1, 6, 1));
        assert_eq!(reader.check(OLD.as_bytes()).expect("accepted").headers(), headers);
        assert_eq!(reader.recheck(&headers, 4, b"@v { ret; }").expect_err("refused").number(), 42);
        assert_eq!(reader.read(b"x").expect("accepted").len(), 2);
    }
}

/// The headers of a rechecked function are its own: it may be rechecked by them, where it calls no other.
#[test]
fn headers_of_a_rechecked_function() {
    let mut reader = Reader::new();
    let own =
        reader.recheck(&headers_of(OLD), B, b"@b: bool { t: bool = call @b; ret t; }").expect("accepted").headers();
    assert_eq!((own.names().collect::<Vec<_>>(), own.line(0)), (vec!["@b"], Some(4)));
    assert!(reader.recheck(&own, 0, b"@b: bool { t: bool = const true; ret t; }").is_ok());
    assert_eq!(refused(&own, 0, b"@b: bool { call @v; }").number(), 16);
}

/// One value of headers serves several readers at once.
#[test]
fn rechecks_run_on_several_threads() {
    let headers = headers_of(OLD);
    std::thread::scope(|scope| {
        for number in [I, V, F, B] {
            let headers = &headers;
            scope.spawn(move || {
                let mut reader = Reader::default();
                for _ in 0..20 {
                    let answer = reader.recheck(headers, number, b"@v { call @v; }");
                    assert_eq!(answer.is_ok(), number == V);
                }
            });
        }
    });
}

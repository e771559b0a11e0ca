//! What the crate's types are like to use: kinds, values, lifetimes, what is owned and what is compared.
use std::collections::HashSet;
use std::fmt::Debug;

use pitchsleet::{
    BinaryOperator, Constant, Edges, Lines, OperationValue, OwnedUnit, Position, Reader, Refusal, RefusalKind, Type,
    UnaryOperator, Unit,
};

const TEXT: &str = "@f(a: int, b: bool): int {
.top:
  c: int = add a a;
  d: bool = not b;
  e: int = const -7;
  g: bool = const true;
  h: int = call @f a g;
  br d .top .end;
.end:
  ret c;
}
";

/// The header's constants for refusals: a number, and a name in capitals.
fn header_s_refusals() -> Vec<(u32, String)> {
    let header = include_str!("../../include/pitchsleet.h");
    let defined = header.lines().filter_map(|line| line.strip_prefix("#define PITCHSLEET_REFUSED_"));
    defined
        .map(|line| {
            let mut words = line.split_whitespace();
            let name = words.next().expect("a name").to_owned();
            (words.next().expect("a number").parse().expect("a number"), name)
        })
        .collect()
}

/// `TooManyBytes` in capitals: `TOO_MANY_BYTES`.
fn in_capitals(kind: RefusalKind) -> String {
    let mut capitals = String::new();
    for letter in format!("{kind:?}").chars() {
        if letter.is_uppercase() && !capitals.is_empty() {
            capitals.push('_');
        }
        capitals.push(letter.to_ascii_uppercase());
    }
    capitals
}

#[test]
fn every_number_has_its_kind() {
    let kinds: Vec<(u32, String)> = RefusalKind::ALL.iter().map(|kind| (kind.number(), in_capitals(*kind))).collect();
    assert_eq!(kinds, header_s_refusals());
    for number in 0..100 {
        let kind = RefusalKind::of(number);
        assert_eq!(kind.map(RefusalKind::number), kinds.iter().map(|kind| kind.0).find(|known| *known == number));
    }
    let mut reader = Reader::new();
    assert_eq!(reader.check(b"@f { ret x; }").unwrap_err().kind(), RefusalKind::Undefined);
    let long = reader.check(&[b' '; 20_000]).unwrap_err();
    assert_eq!((long.kind(), long.position(&[b' '; 20_000])), (RefusalKind::TooManyBytes, None));
    assert!(long.kind().is_limit() && !long.kind().has_place());
    let limits: Vec<u32> = RefusalKind::ALL.iter().filter(|kind| kind.is_limit()).map(|kind| kind.number()).collect();
    assert_eq!(limits, [31, 32, 33, 34, 35, 36, 37, 38]);
    let placeless: Vec<u32> =
        RefusalKind::ALL.iter().filter(|kind| !kind.has_place()).map(|kind| kind.number()).collect();
    assert_eq!(placeless, [30, 31, 42]);
}

/// Small enough that no lint complains of a `Result` with it, and an error like others.
#[test]
fn a_refusal_is_small() {
    assert!(size_of::<Refusal>() <= 40, "{}", size_of::<Refusal>());
    assert!(size_of::<Result<Unit<'_, '_>, Refusal>>() <= size_of::<Unit<'_, '_>>() + 8);
    fn fails(text: &str) -> Result<usize, Box<dyn std::error::Error + Send + Sync>> {
        Ok(Reader::new().check(text.as_bytes())?.function_count())
    }
    assert_eq!(fails("@f { nop; }").ok(), Some(1));
    let error = fails("$").unwrap_err();
    assert_eq!(error.to_string(), "refused 3 at byte 0: [line 1] Error : Unexpected token: '$'.");
}

/// Spellings and warnings borrow the text, not the reader: they are still there behind its next call.
#[test]
fn spellings_outlive_the_reader_s_next_call() {
    let mut reader = Reader::new();
    let names: Vec<&str> = reader.read(TEXT.as_bytes()).expect("accepted").names().map(|name| name.spelling).collect();
    let tokens: Vec<_> = reader.read(TEXT.as_bytes()).expect("accepted").iter().collect();
    let unit = reader.check(TEXT.as_bytes()).expect("accepted");
    let function = unit.function(0).expect("there is one").name();
    let spelling = unit.spelling(function.identifier);
    let warnings = reader.check(b"@f { print x; }").expect("accepted").warnings();
    drop(reader);
    assert_eq!(names, ["@f", "a", "b", ".top", "c", "d", "e", "g", "h", ".end"]);
    assert_eq!((function.spelling, spelling, tokens[0].spelling, warnings[0].spelling), ("@f", "@f", "@f", "x"));
}

#[test]
fn operators_and_constants_are_values() {
    let mut reader = Reader::new();
    let unit = reader.check(TEXT.as_bytes()).expect("accepted");
    let block = unit.function(0).and_then(|function| function.block(0)).expect("there is one");
    let values: Vec<OperationValue<'_>> = block.operations().map(|operation| operation.value).collect();
    assert!(matches!(values[0], OperationValue::Binary { operator: BinaryOperator::Add, .. }));
    assert!(matches!(values[1], OperationValue::Unary { operator: UnaryOperator::Not, .. }));
    assert!(matches!(values[2], OperationValue::Const { value: Constant::Int(-7), .. }));
    assert!(matches!(values[3], OperationValue::Const { value: Constant::Bool(true), .. }));
    assert_eq!(
        (Constant::Int(-7).to_string(), Constant::Bool(false).to_string()),
        ("-7".to_owned(), "false".to_owned())
    );
    // Each operator's word is read back as the operator.
    let words = ["add", "mul", "sub", "div", "mod", "eq", "lt", "gt", "le", "ge", "and", "or"];
    let mut seen = HashSet::new();
    for word in words {
        let (operands, result) = match word {
            "and" | "or" => ("b: bool", "bool"),
            "eq" | "lt" | "gt" | "le" | "ge" => ("b: int", "bool"),
            _ => ("b: int", "int"),
        };
        let text = format!("@f({operands}) {{ x: {result} = {word} b b; }}");
        let unit = reader.check(text.as_bytes()).expect("accepted");
        let first = unit.functions().flat_map(|function| function.blocks()).flat_map(|block| block.operations()).next();
        let Some(OperationValue::Binary { operator, .. }) = first.map(|operation| operation.value) else {
            panic!("{word} is a binary operation");
        };
        assert_eq!((operator.word(), operator.to_string().as_str()), (word, word));
        assert!(seen.insert(operator));
    }
}

#[test]
fn edges_and_arguments_are_iterated_and_compared() {
    let mut reader = Reader::new();
    let unit = reader.check(TEXT.as_bytes()).expect("accepted");
    let function = unit.function(0).expect("there is one");
    let edges: Edges<'_> = function.block(0).expect("it has blocks").successors();
    assert_eq!(edges, [0, 1]);
    assert_eq!(edges, [0, 1][..]);
    assert_ne!(edges, [1, 0]);
    assert_ne!(edges, [0]);
    let (mut by_value, mut by_reference) = (Vec::new(), Vec::new());
    for block in edges {
        by_value.push(block);
    }
    for block in &edges {
        by_reference.push(block);
    }
    assert_eq!((by_value, by_reference), (vec![0, 1], vec![0, 1]));
    assert_eq!(edges.into_iter().rev().collect::<Vec<_>>(), [1, 0]);
    assert_eq!(edges.iter().len(), 2);
    let call = function.block(0).and_then(|block| block.operations().nth(4)).expect("it is the call");
    let OperationValue::Call { arguments, .. } = call.value else { panic!("it is the call") };
    let types: Vec<Type> = arguments.into_iter().map(|argument| argument.ty).collect();
    assert_eq!(types, [Type::Int, Type::Bool]);
    let mut names = Vec::new();
    for argument in &arguments {
        names.push(unit.spelling(argument.name));
    }
    assert_eq!(names, ["a", "g"]);
    assert_eq!(arguments.iter().next_back(), arguments.get(1));
    assert_eq!(call, function.block(0).and_then(|block| block.operations().nth(4)).expect("it is the call"));
    assert_ne!(call.value, function.block(0).and_then(|block| block.operations().next()).expect("another").value);
}

#[test]
fn a_unit_of_its_own() {
    fn outlives<T: Send + Sync + Clone + Debug + Eq + 'static>(value: T) -> T {
        value
    }
    let mut reader = Reader::new();
    let text = TEXT.to_owned();
    let (owned, said, headers) = {
        let unit = reader.check(text.as_bytes()).expect("accepted");
        let owned = OwnedUnit::from(unit);
        assert_eq!(owned.unit(), unit);
        assert_eq!(owned, unit.into_owned());
        (owned, format!("{unit:?}"), unit.headers())
    };
    drop(text);
    let other = reader.check(b"@g { nop; }").expect("accepted").into_owned();
    drop(reader);
    let owned = outlives(owned);
    assert_eq!(owned.text(), TEXT);
    assert_eq!((format!("{owned:?}"), format!("{:?}", owned.unit())), (said.clone(), said));
    assert_eq!(owned.unit().headers(), headers);
    assert_eq!(owned.unit().function(0).map(|function| function.block_count()), Some(2));
    assert_ne!(owned, other);
    // What is equal is so by its contents, wherever they stand.
    let again = Reader::new().check(TEXT.as_bytes()).expect("accepted").into_owned();
    assert_eq!(owned, again);
    assert_eq!(owned.unit().function(0), again.unit().function(0));
}

#[test]
fn lines_and_columns_of_a_file() {
    let text = b"ab\r\n\n/* \n */ c\n";
    let lines = Lines::new(text);
    assert_eq!(lines.count(), 5);
    let at = |line, column| Position { line, column };
    for (place, position) in
        [(0, at(1, 1)), (3, at(1, 4)), (4, at(2, 1)), (5, at(3, 1)), (13, at(4, 5)), (15, at(5, 1)), (99, at(5, 1))]
    {
        assert_eq!(lines.position(place), position, "{place}");
    }
    assert_eq!(lines.get(1), Some(&b"ab"[..]));
    assert_eq!(lines.get(2), Some(&b""[..]));
    assert_eq!(lines.get(4), Some(&b" */ c"[..]));
    assert_eq!((lines.get(5), lines.get(6), lines.get(0)), (Some(&b""[..]), None, None));
    assert_eq!((lines.start(3), lines.start(6), lines.start(0)), (Some(5), None, None));
    assert_eq!(Lines::new(b"").position(0), at(1, 1));
    // The token on the file's line 4 is counted on line 3.
    let mut reader = Reader::new();
    let tokens = reader.read(text).expect("accepted");
    let last = tokens.get(1).expect("there are three");
    assert_eq!((last.line, lines.position(last.place)), (3, at(4, 5)));
    assert_eq!((tokens.at_place(13), tokens.at_place(12), tokens.at_place(15)), (Some(1), None, Some(2)));
}

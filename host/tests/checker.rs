//! The safe interface of checking: what `Reader::check` gives for texts, one after the other.
use pitchsleet::{
    BinaryOperator, Constant, Identifier, OperationValue, Reader, Refusal, TokenValue, Type, UnaryOperator, Variable,
};

fn refused(text: &str) -> Refusal {
    Reader::new().check(text.as_bytes()).expect_err("refused")
}

fn refusal_of(text: &str) -> (u32, u32, usize, String) {
    let refusal = refused(text);
    let message = String::from_utf8(refusal.message().to_vec()).expect("ASCII");
    (refusal.number(), refusal.line(), refusal.place(), message)
}

/// Document 01's texts.
#[test]
fn texts_of_document_01() {
    let mut reader = Reader::new();
    let unit = reader.check(b"").expect("accepted");
    assert_eq!((unit.function_count(), unit.tokens().len()), (0, 1));

    let unit = reader.check(b"@f { nop; }").expect("accepted");
    let kinds: Vec<&str> =
        unit.functions().flat_map(|f| f.blocks()).flat_map(|b| b.operations()).map(|o| o.kind()).collect();
    assert_eq!((unit.tokens().len(), &kinds[..]), (6, &["nop", "ret"][..]));

    assert_eq!(refused("@f { }").number(), 22);
    let unit = reader.check(b"@f { .a: .b: nop; }").expect("accepted");
    let function = unit.function(0).expect("a function");
    assert_eq!(function.block_count(), 1);
    assert_eq!(
        function.labels().map(|label| (label.name.0, label.token, label.block)).collect::<Vec<_>>(),
        [(1, 2, 0), (2, 4, 0)]
    );
    assert_eq!(refused("@f { nop; .a: .b: nop; }").number(), 22);
    assert_eq!(refused("@f { ret; nop; }").number(), 12);

    let unit = reader.check(b"@f { .a: br q .a .a; }").expect("accepted");
    let block = unit.function(0).and_then(|function| function.block(0)).expect("a block");
    assert_eq!((block.successors().to_vec(), block.predecessors().to_vec()), (vec![0, 0], vec![0, 0]));

    let unit = reader.check(b"@f { x: int = call @g x; } @g(a: int): int { ret a; }").expect("accepted");
    assert_eq!(unit.function_count(), 2);

    let message = "[line 1] Error at 'true': 'int' type expected; 'bool' found\n";
    assert_eq!(refusal_of("@f { x: int = const true; }"), (17, 1, 20, message.to_owned()));
    assert_eq!(refused("@f: int { nop; }").number(), 21);
    let out_of_range = |place| (43, 1, place, "[line 1] Error : Number out of range.\n".to_owned());
    assert_eq!(refusal_of("@f { x: int = const 2147483648; }"), out_of_range(20));
    assert_eq!(refusal_of("@f { nop 2147483648; }"), out_of_range(9));
    assert_eq!(refused("-2147483648").number(), 7);
    assert!(reader.check(b"@f { nop; } @f { nop; }").is_ok());
    assert_eq!(refused("@f { nop; } @f: int { nop; }").number(), 15);
}

/// Every kind of operation, as Rust values.
#[test]
fn operations_are_values() {
    let text = "@f(a: int, c: bool): int {
  x: int = add a a;
  y: bool = not c;
  z: int = const -7;
  x: int = call @f z y;
  call @g;
  print x;
  nop;
  br y .one .two;
.one:
  jmp .two;
.two:
  ret x;
}
@g { t: bool = const true; }";
    let mut reader = Reader::new();
    let unit = reader.check(text.as_bytes()).expect("accepted");
    let name =
        |spelling: &str| unit.tokens().names().find(|name| name.spelling == spelling).expect("a name").identifier;
    let int = |spelling: &str| Variable { name: name(spelling), ty: Type::Int };
    let bool = |spelling: &str| Variable { name: name(spelling), ty: Type::Bool };
    let untyped = |spelling: &str| Variable { name: name(spelling), ty: Type::Placeholder };

    let f = unit.function(0).expect("@f");
    assert_eq!((f.name().spelling, f.result(), f.ty(), f.line()), ("@f", Type::Int, Type::Fn(0), 1));
    assert_eq!(f.formals().collect::<Vec<_>>(), [int("a"), bool("c")]);
    assert_eq!((f.token(), f.place(), f.block_count()), (0, 0, 3));
    assert_eq!(&text[f.place()..=f.end_place()], text.split_inclusive("\n}").next().expect("the first function"));
    assert_eq!(unit.tokens().get(f.end_token()).map(|token| token.value), Some(TokenValue::RightBrace));

    let operations: Vec<_> = f.block(0).expect("a block").operations().collect();
    let spelled = |at: usize| unit.tokens().get(operations[at].token).expect("a token").spelling;
    let OperationValue::Binary { operator, result, left, right } = operations[0].value else { panic!("no binary") };
    assert_eq!((operator, result, left, right, spelled(0)), (BinaryOperator::Add, int("x"), int("a"), int("a"), "add"));
    let OperationValue::Unary { operator, result, operand } = operations[1].value else { panic!("no unary") };
    assert_eq!((operator, result, operand), (UnaryOperator::Not, bool("y"), bool("c")));
    let OperationValue::Const { value, result } = operations[2].value else { panic!("no const") };
    assert_eq!((value, result, spelled(2)), (Constant::Int(-7), int("z"), "-7"));
    let OperationValue::Call { callee, result, arguments } = operations[3].value else { panic!("no call") };
    assert_eq!((callee, result), (Variable { name: name("@f"), ty: Type::Fn(0) }, Some(int("x"))));
    assert_eq!((arguments.len(), arguments.get(1), arguments.get(2)), (2, Some(bool("y")), None));
    assert_eq!(arguments.iter().collect::<Vec<_>>(), [int("z"), bool("y")]);
    let OperationValue::Call { callee, result: None, arguments } = operations[4].value else { panic!("no call") };
    assert_eq!((callee.ty, arguments.is_empty()), (Type::Fn(1), true));
    let OperationValue::Print { operand } = operations[5].value else { panic!("no print") };
    assert_eq!(operand, untyped("x"));
    assert!(matches!(operations[6].value, OperationValue::Nop));
    let OperationValue::Branch { condition, then, otherwise } = operations[7].value else { panic!("no br") };
    assert_eq!((condition, then, otherwise), (untyped("y"), name(".one"), name(".two")));
    assert!(operations[7].is_terminator() && !operations[6].is_terminator());
    assert_eq!(operations[7].labels().collect::<Vec<_>>(), [then, otherwise]);

    let jump = f.block(1).and_then(|block| block.operations().next()).expect("an operation");
    assert!(matches!(jump.value, OperationValue::Jump { target } if target == name(".two")));
    let ret = f.block(2).and_then(|block| block.operations().next()).expect("an operation");
    assert!(matches!(ret.value, OperationValue::Return { value: Some(x), added: false } if x == untyped("x")));

    let g = unit.function(1).expect("@g");
    assert_eq!((g.result(), g.ty(), g.formals().len(), g.line()), (Type::Void, Type::Fn(1), 0, 15));
    let added = g.block(0).and_then(|block| block.operations().next_back()).expect("an operation");
    assert!(matches!(added.value, OperationValue::Return { value: None, added: true }));
    assert_eq!(unit.tokens().get(added.token).map(|token| token.spelling), Some("true"));
    assert!(unit.function(2).is_none() && g.block(1).is_none());
}

#[test]
fn blocks_have_edges_labels_and_a_dead_mark() {
    let text = b"@f { .e: br q .a .b; .a: br q .b .a; .b: ret; .d: jmp .b; .l: jmp .l; }";
    let mut reader = Reader::new();
    let unit = reader.check(text).expect("accepted");
    let function = unit.function(0).expect("a function");
    let edges: Vec<_> =
        function.blocks().map(|b| (b.successors().to_vec(), b.predecessors().to_vec(), b.is_dead())).collect();
    let expected = [
        (vec![1, 2], vec![], false),
        (vec![2, 1], vec![0, 1], false),
        (vec![], vec![0, 1, 3], false),
        (vec![2], vec![], true),
        (vec![4], vec![4], false),
    ];
    assert_eq!(edges, expected);
    assert_eq!(function.labels().map(|label| label.block).collect::<Vec<_>>(), [0, 1, 2, 3, 4]);
    let block = function.block(1).expect("a block");
    assert_eq!(
        block.labels().map(|label| unit.name(label.name).map(|name| name.spelling)).collect::<Vec<_>>(),
        [Some(".a")]
    );
    assert_eq!((block.number(), block.successors().len(), block.successors().get(1)), (1, 2, Some(1)));
    assert!(function.block(0).is_some_and(|block| block.predecessors().is_empty()));
    assert_eq!(format!("{:?}", block.predecessors()), "[0, 1]");
    assert!(format!("{unit:?}").contains("is_dead: true"));
}

/// A label that ends one function and one that begins the next are told apart, and an added `ret` stands between a block
/// and the next one's label.
#[test]
fn labels_belong_to_their_blocks() {
    let mut reader = Reader::new();
    let unit = reader.check(b"@f { nop; .a: nop; } @g { .a: .b: nop; .c: ret; }").expect("accepted");
    let labels: Vec<Vec<_>> =
        unit.functions().map(|f| f.labels().map(|label| (label.name.0, label.block)).collect()).collect();
    assert_eq!(labels, [vec![(1, 1)], vec![(1, 0), (3, 0), (4, 1)]]);
}

/// A function's name may first appear in a call.
#[test]
fn a_function_s_place_is_its_own() {
    let mut reader = Reader::new();
    let unit = reader.check(b"@f { call @g; } @g { nop; }").expect("accepted");
    let g = unit.function(1).expect("@g");
    assert_eq!((g.name().place, g.place(), g.name().identifier), (10, 16, Identifier(1)));
}

#[test]
fn what_was_checked_before_leaves_nothing() {
    let mut reader = Reader::new();
    let long = "@f(a: int) { .x: .y: call @f a; br q .x .z; .z: print a; }\n@g: bool { t: bool = const true; ret t; }";
    for _ in 0..3 {
        let unit = reader.check(long.as_bytes()).expect("accepted");
        assert_eq!((unit.function_count(), unit.function(0).map(|function| function.block_count())), (2, Some(2)));
        assert_eq!(reader.check(b"@f { ret x; }").expect_err("refused"), refused("@f { ret x; }"));
        assert_eq!(reader.check(b"").expect("accepted").function_count(), 0);
        assert_eq!(reader.read(long.as_bytes()).expect("accepted").names().len(), 8);
        assert_eq!(reader.check(b"@f { nop; }").expect("accepted").function_count(), 1);
        assert_eq!(reader.check(b"$").expect_err("refused").number(), 3);
    }
}

#[test]
fn types_have_words() {
    let words = [Type::Placeholder, Type::Int, Type::Bool, Type::Void, Type::Fn(12)].map(|ty| ty.to_string());
    assert_eq!(words, ["placeholder", "int", "bool", "void", "fn 12"]);
}

/// A check needs more stack than a reading, and far less than a thread has.
#[test]
fn checks_run_on_several_threads() {
    let threads: Vec<_> = (0..4)
        .map(|i| {
            std::thread::spawn(move || {
                let mut reader = Reader::default();
                let text = "@f { nop; }".repeat(1 + i);
                (0..20).all(|_| reader.check(text.as_bytes()).is_ok_and(|unit| unit.function_count() == 1 + i))
            })
        })
        .collect();
    assert!(threads.into_iter().all(|thread| thread.join().expect("no panic")));
}

//! The safe interface: what a `Reader` gives for texts, one after the other.
use std::error::Error;

use pitchsleet::{Identifier, Name, Printable, Reader, Refusal, Token, TokenValue};

fn refused(text: &[u8]) -> Refusal {
    Reader::new().read(text).expect_err("refused")
}

/// Document 01's texts that are about reading.
#[test]
fn texts_of_document_01() {
    let mut reader = Reader::new();
    assert_eq!(reader.read(b"").expect("accepted").len(), 1);
    assert_eq!(reader.read(b"@f { nop; }").expect("accepted").len(), 6);
    let large = refused(b"@f { nop 2147483648; }");
    assert_eq!((large.number(), large.line(), large.place()), (43, 1, 9));
    assert_eq!(large.message(), b"[line 1] Error : Number out of range.\n");
    let largest = reader.read(b"2147483647").expect("accepted").get(0).map(|token| token.value);
    assert_eq!(largest, Some(TokenValue::Integer(i32::MAX)));
    let lowest = reader.read(b"-2147483648").expect("accepted").get(0).map(|token| token.value);
    assert_eq!(lowest, Some(TokenValue::Integer(i32::MIN)));
    assert_eq!(refused(b"-2147483649").number(), 4);
    assert_eq!(refused(b"/***/").number(), 2);
    let counted = refused(b"#x\n@");
    assert_eq!((counted.number(), counted.line(), counted.place()), (3, 1, 3));
}

#[test]
fn tokens_have_line_place_and_spelling() {
    let mut reader = Reader::new();
    let tokens = reader.read(b"x: int =\n  const -007; # end\n.l").expect("accepted");
    let local = Token { value: TokenValue::Local(Identifier(0)), line: 1, place: 0, spelling: "x" };
    let integer = Token { value: TokenValue::Integer(-7), line: 2, place: 17, spelling: "-007" };
    let label = Token { value: TokenValue::Label(Identifier(1)), line: 2, place: 29, spelling: ".l" };
    let end = Token { value: TokenValue::EndOfFile, line: 2, place: 31, spelling: "" };
    assert_eq!(tokens.get(0), Some(local));
    assert_eq!(tokens.get(5), Some(integer));
    assert_eq!(tokens.iter().rev().take(2).collect::<Vec<_>>(), [end, label]);
    assert_eq!(tokens.get(9), None);
    assert_eq!(label.to_string(), ".l");
    assert_eq!(end.to_string(), "END_OF_FILE");
}

#[test]
fn tokens_are_iterated_in_all_ways() {
    let mut reader = Reader::new();
    let tokens = reader.read(b"a b c").expect("accepted");
    let forward: Vec<Token> = tokens.iter().collect();
    assert_eq!(tokens.into_iter().collect::<Vec<_>>(), forward);
    assert_eq!((&tokens).into_iter().rev().collect::<Vec<_>>(), forward.iter().rev().copied().collect::<Vec<_>>());
    let mut iter = tokens.iter();
    assert_eq!((iter.len(), iter.nth(2), iter.len()), (4, Some(forward[2]), 1));
    assert_eq!((iter.next(), iter.next(), iter.next()), (Some(forward[3]), None, None));
    assert_eq!(tokens.text(), "a b c");
    assert!(format!("{tokens:?}").contains("Local(Identifier(1))"));
}

#[test]
fn names_are_one_table() {
    let mut reader = Reader::new();
    let tokens = reader.read(b"f @f .f f").expect("accepted");
    let names: Vec<Name> = tokens.names().collect();
    let spellings: Vec<&str> = names.iter().map(|name| name.spelling).collect();
    assert_eq!(spellings, ["f", "@f", ".f"]);
    assert_eq!(names[2], Name { identifier: Identifier(2), place: 5, spelling: ".f" });
    assert_eq!(tokens.name(Identifier(1)), Some(names[1]));
    assert_eq!(tokens.name(Identifier(3)), None);
    let numbers: Vec<_> = tokens.iter().map(|token| token.value.identifier().map(|name| name.0)).collect();
    assert_eq!(numbers, [Some(0), Some(1), Some(2), Some(0), None]);
}

#[test]
fn a_refusal_after_an_acceptance_and_back() {
    let mut reader = Reader::new();
    let long = [b"@a_long_one ".repeat(20), b"x y z 5 ".repeat(100)].concat();
    for _ in 0..3 {
        let tokens = reader.read(&long).expect("accepted");
        assert_eq!((tokens.len(), tokens.names().len()), (421, 4));
        let refusal = reader.read(b"@a $").expect_err("refused");
        assert_eq!(refusal, refused(b"@a $"));
        let tokens = reader.read(b"z").expect("accepted");
        assert_eq!((tokens.len(), tokens.get(0).map(|token| token.spelling)), (2, Some("z")));
        assert_eq!(reader.read(b"\n/*").expect_err("refused"), refused(b"\n/*"));
        assert_eq!(reader.read(b"").expect("accepted").names().len(), 0);
    }
}

/// A refusal stays what it is when the reader goes on.
#[test]
fn a_refusal_is_kept_apart() {
    let mut reader = Reader::new();
    let first = reader.read(b"$").expect_err("refused");
    reader.read(b"@f { nop; }").expect("accepted");
    reader.read(b"/*").expect_err("refused");
    assert_eq!(first.message(), b"[line 1] Error : Unexpected token: '$'.\n");
}

#[test]
fn a_message_ends_with_its_newline_and_not_with_a_zero() {
    let refusal = refused(b"x\0");
    assert_eq!(refusal.message(), b"[line 1] Error : Unexpected token: '\0'.\n");
    assert_eq!(refusal.to_string(), r"refused 3 at byte 1: [line 1] Error : Unexpected token: '\x00'.");
    assert!(format!("{refusal:?}").contains(r"'\x00'.\x0a"));
}

#[test]
fn a_refusal_is_an_error() {
    fn fails() -> Result<usize, Box<dyn Error + Send + Sync>> {
        Ok(Reader::new().read(b"-")?.len())
    }
    let why = fails().expect_err("refused");
    assert_eq!(why.to_string(), "refused 4 at byte 0: [line 1] Error : Expected number after '-'.");
}

#[test]
fn readers_work_on_several_threads() {
    let threads: Vec<_> = (0..4)
        .map(|i| {
            std::thread::spawn(move || {
                let mut reader = Reader::default();
                let text = "x ".repeat(100 + i);
                (0..50).all(|_| reader.read(text.as_bytes()).is_ok_and(|tokens| tokens.len() == 101 + i))
            })
        })
        .collect();
    assert!(threads.into_iter().all(|thread| thread.join().expect("no panic")));
}

#[test]
fn printable_bytes() {
    assert_eq!(Printable(b" ~\t\x7f\x80\\").to_string(), r" ~\x09\x7f\x80\");
}

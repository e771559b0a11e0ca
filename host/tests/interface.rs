//! docs/INTERFACE.md, include/pitchsleet.h and the crate's own declarations: every size, cell, kind, number, struct and
//! parameter is read out of the document, and the two others are held to it.
use std::collections::BTreeMap;
use std::mem::{align_of, offset_of, size_of};

use pitchsleet::raw::{self, CheckAnswer, ReadAnswer};
use pitchsleet::{Reader, Refusal, TokenValue};

const DOCUMENT: &str = include_str!("../../docs/INTERFACE.md");
const HEADER: &str = include_str!("../../include/pitchsleet.h");
const RAW: &str = include_str!("../src/raw.rs");

/// A table without its line of dashes: cells without code marks, those of its head first.
type Table = Vec<Vec<String>>;

/// The tables of a text, from the top down.
fn tables_of(text: &str) -> Vec<Table> {
    let mut tables = vec![Table::new()];
    for line in text.lines() {
        match line.starts_with('|') {
            true if line.starts_with("|---") => {}
            true => tables.last_mut().expect("one is begun").push(cells(line)),
            false => tables.push(Table::new()),
        }
    }
    tables.retain(|table| !table.is_empty());
    tables
}

fn cells(row: &str) -> Vec<String> {
    let row = row.trim_start_matches('|').trim_end_matches('|');
    row.split('|').map(|cell| cell.trim().replace('`', "")).collect()
}

/// What stands under a heading, up to the next one.
fn section(heading: &str) -> &'static str {
    let section = DOCUMENT.split(&format!("# {heading}\n")).nth(1);
    let section = section.unwrap_or_else(|| panic!("docs/INTERFACE.md has no {heading}"));
    section.split("\n#").next().expect("a split has a first part")
}

/// The rows of a table under a heading, by its index there, without its head.
fn rows(heading: &str, index: usize) -> Vec<Vec<String>> {
    let mut tables = tables_of(section(heading));
    assert!(index < tables.len(), "{heading} has no table {index}");
    tables.swap_remove(index).split_off(1)
}

/// The rows of the first table under a heading, without its head.
fn table(heading: &str) -> Vec<Vec<String>> {
    rows(heading, 0)
}

/// The first and the second cell of each row, the second as a number.
fn numbered(rows: &[Vec<String>]) -> Vec<(&str, usize)> {
    rows.iter().map(|row| (row[0].as_str(), number(&row[1]))).collect()
}

fn number(cell: &str) -> usize {
    cell.replace(',', "").parse().unwrap_or_else(|_| panic!("no number: {cell}"))
}

/// The number that ends a sentence's phrase, as the 20 of "has 20 bytes".
fn number_between(before: &str, after: &str) -> usize {
    let rest = DOCUMENT.split(before).nth(1).unwrap_or_else(|| panic!("no '{before}' in the document"));
    number(rest.split(after).next().expect("a split has a first part"))
}

/// The constants of the document by their names: those of tables with a column for them, those of the table of slices, and
/// those of sentences, as in "`CELL_BYTES` is 4".
fn constants() -> BTreeMap<String, usize> {
    let mut constants = BTreeMap::new();
    let mut enter = |name: String, value: usize| {
        let before = constants.insert(name.clone(), value);
        assert!(before.is_none_or(|before| before == value), "{name} has two values");
    };
    for table in tables_of(DOCUMENT) {
        let Some(named) = table[0].iter().position(|head| head == "constant") else {
            continue;
        };
        let valued = ["cell", "kind", "number", "bytes", "at most"];
        let valued = table[0].iter().position(|head| valued.contains(&head.as_str())).expect("a column of values");
        for row in &table[1..] {
            enter(row[named].clone(), number(&row[valued]));
        }
    }
    for row in table("Slices of cells") {
        let (slice, record) = (row[0].to_uppercase(), row[4].to_uppercase());
        for (name, column) in [("CELLS", 1), ("OFFSET", 2), ("ROOM", 3)] {
            enter(format!("{slice}_{name}"), number(&row[column]));
        }
        enter(format!("{record}_WIDTH"), number(&row[5]));
    }
    for (at, _) in DOCUMENT.match_indices("` is ") {
        let name = DOCUMENT[..at].rsplit('`').next().expect("a split has a first part");
        let value: String = DOCUMENT[at + 5..].chars().take_while(char::is_ascii_digit).collect();
        if name.chars().all(|c| c.is_ascii_uppercase() || c == '_') && !value.is_empty() {
            enter(name.to_owned(), number(&value));
        }
    }
    constants
}

/// The header's constants with their values as they are written, without the mark of the project before the names.
fn constants_of_header() -> BTreeMap<&'static str, &'static str> {
    let definitions = HEADER.lines().filter_map(|line| line.strip_prefix("#define PITCHSLEET_"));
    let definitions = definitions.filter_map(|definition| definition.split_once(' '));
    definitions.map(|(name, value)| (name, value.split(" /*").next().unwrap_or(value).trim())).collect()
}

#[test]
fn the_header_has_the_document_s_constants() {
    let (version, others): (BTreeMap<_, _>, BTreeMap<_, _>) =
        constants_of_header().into_iter().partition(|(name, _)| name.starts_with("VERSION"));
    let others: BTreeMap<String, usize> =
        others.into_iter().map(|(name, value)| (name.to_owned(), number(value))).collect();
    let of_document = constants();
    assert!(of_document.len() > 150, "only {} are read out of the document", of_document.len());
    assert_eq!(others, of_document);

    let text = env!("CARGO_PKG_VERSION");
    let [major, minor, patch] = [0, 1, 2].map(|part| text.split('.').nth(part).expect("three numbers"));
    let quoted = format!("\"{text}\"");
    let expected =
        [("VERSION", quoted.as_str()), ("VERSION_MAJOR", major), ("VERSION_MINOR", minor), ("VERSION_PATCH", patch)];
    assert_eq!(version, BTreeMap::from(expected));
    assert!(expected.iter().all(|(name, _)| DOCUMENT.contains(&format!("`{name}`"))));
}

/// The structs and functions that a piece of C declares, each in one line: comments, directives and what is for C++ alone
/// are passed over.
fn declarations(code: &str) -> Vec<String> {
    let mut parts = code.split("/*");
    let first = parts.next().expect("a split has a first part").to_owned();
    let code = parts.fold(first, |code, part| code + part.split_once("*/").expect("comments are closed").1);
    let lines = code.lines().map(str::trim).filter(|line| !line.starts_with('#'));
    let lines: Vec<&str> = lines.filter(|line| !["", "extern \"C\" {", "}"].contains(line)).collect();
    let (mut found, mut depth) = (vec![String::new()], 0);
    for letter in lines.join(" ").chars() {
        depth += i32::from(letter == '{') - i32::from(letter == '}');
        found.last_mut().expect("one is begun").push(letter);
        if letter == ';' && depth == 0 {
            found.push(String::new());
        }
    }
    let found = found.into_iter().map(|one| one.replace("( ", "(").trim().to_owned());
    found.filter(|one| !one.is_empty()).collect()
}

/// The C of the document that declares something: the blocks of its first three sections.
fn declarations_of_document() -> Vec<String> {
    let declaring = ["The C functions", "On cells", "On bytes"];
    let blocks = declaring.map(|heading| section(heading).split("```c\n").nth(1).expect("a block of C"));
    let blocks = blocks.map(|block| block.split("```").next().expect("a split has a first part"));
    declarations(&blocks.concat())
}

#[test]
fn the_header_declares_what_the_document_does() {
    let of_document = declarations_of_document();
    assert_eq!(of_document.len(), 2 + 6, "two structs and six functions");
    assert_eq!(declarations(HEADER), of_document);
    // What a compiler would see besides.
    assert_eq!(HEADER.matches("#include").count(), 2);
    assert_eq!(HEADER.matches("pitchsleet_read_answer {").count(), 1);
}

/// The stack that the header says each function takes, in the order of its declarations.
#[test]
fn the_header_s_stacks() {
    let of_header = HEADER.split("Stack: less than ").skip(1);
    let of_header: Vec<usize> = of_header.map(|rest| number(rest.split(' ').next().expect("a number"))).collect();
    let of_document = ["On cells a call", "A call"].map(|form| {
        ["read", "check", "recheck"]
            .map(|function| number_between(&format!("{form} of {function} needs less than "), " KiB"))
    });
    assert_eq!(of_header, of_document.concat());
}

/// The names of kinds, types and numbers are those of the proved code.
#[test]
fn names_of_the_proved_code() {
    let constants = constants();
    for (file, prefix) in [
        (include_str!("../../crates/pieces/src/kinds.rt"), "TOKEN_KIND_"),
        (include_str!("../../crates/body/src/kinds.rt"), "ITEM_KIND_"),
        (include_str!("../../crates/parser/src/types.rt"), "TYPE_"),
        (include_str!("../../crates/utils/src/numbers.rt"), "REFUSED_"),
    ] {
        let lines = file.lines().filter_map(|line| line.strip_prefix("pub const "));
        let of_code = lines.filter_map(|line| line.trim_end_matches(';').split_once(": u32 = "));
        let of_code = of_code.filter(|(name, _)| *name != "ACCEPTED");
        let of_code: BTreeMap<String, usize> =
            of_code.map(|(name, value)| (format!("{prefix}{name}"), number(value))).collect();
        let of_document = constants.iter().filter(|(name, _)| name.starts_with(prefix));
        assert_eq!(of_code, of_document.map(|(name, value)| (name.clone(), *value)).collect(), "{prefix}");
    }
}

#[test]
fn sizes_of_the_slices() {
    let at = constants();
    let sizes = [
        ("LIMIT_BYTES", raw::TEXT_BYTES),
        ("TABLE_BYTES", raw::TABLE_BYTES),
        ("READ_OUT_BYTES", raw::OUT_BYTES),
        ("CHECK_OUT_BYTES", raw::CHECK_OUT_BYTES),
        ("MESSAGE_BYTES", raw::MESSAGE_BYTES),
        ("LIMIT_TOKENS", raw::TOKENS),
        ("LIMIT_NAMES", raw::NAMES),
        ("LIMIT_NAME_BYTES", raw::LONGEST_NAME),
        ("LIMIT_FUNCTIONS", raw::FUNCTIONS),
        ("LIMIT_FORMALS", raw::FORMALS),
    ];
    for (name, size) in sizes {
        assert_eq!(at[name], size, "{name}");
    }
    assert_eq!(at["LIMIT_BLOCKS"], at["LIMIT_LABELS"] + 1);
}

/// Every constant of the crate's declarations is one of the document's. What is worked out from others there is passed over.
#[test]
fn constants_of_the_crate() {
    let at = constants();
    let one = |name: &str| at.get(name).copied();
    let of_document = |name: &str| match name {
        "TEXT_BYTES" => one("LIMIT_BYTES"),
        "OUT_BYTES" => one("READ_OUT_BYTES"),
        "LONGEST_NAME" => one("LIMIT_NAME_BYTES"),
        "FORMALS" => one("LIMIT_FORMALS"),
        "BLOCK_SUCCESSORS" => one("BLOCK_SUCCESSOR"),
        name => {
            let width = name.strip_suffix("_CELLS").and_then(|record| one(&format!("{record}_WIDTH")));
            one(name).or(width).or(one(&format!("{name}_ROOM")))
        }
    };
    let declared = RAW.lines().filter_map(|line| line.strip_prefix("pub const "));
    let declared = declared.filter_map(|line| line.trim_end_matches(';').split_once(": usize = "));
    let mut held = 0;
    for (name, value) in declared {
        if let Ok(value) = value.replace('_', "").parse() {
            assert_eq!(of_document(name), Some(value), "{name}");
            held += 1;
        }
    }
    assert!(held > 50, "only {held} are read out of the crate's declarations");
}

/// The slices of cells, which follow each other in `out`; each holds its records, and `functions` their count too.
#[test]
fn slices_of_cells() {
    let at = constants();
    assert_eq!(at["CELL_BYTES"], CELL);
    let slices = [
        ("tokens", raw::TOKENS, raw::TOKEN_CELLS, raw::TOKENS_OFFSET),
        ("names", raw::NAMES, raw::NAME_CELLS, raw::NAMES_OFFSET),
        ("functions", raw::FUNCTIONS, raw::FUNCTION_CELLS, raw::FUNCTIONS_OFFSET),
        ("items", raw::ITEMS, raw::ITEM_CELLS, raw::ITEMS_OFFSET),
        ("arguments", raw::ARGUMENTS, raw::ARGUMENT_CELLS, raw::ARGUMENTS_OFFSET),
        ("blocks", raw::BLOCKS, raw::BLOCK_CELLS, raw::BLOCKS_OFFSET),
        ("predecessors", raw::PREDECESSORS, raw::PREDECESSOR_CELLS, raw::PREDECESSORS_OFFSET),
    ];
    let rows = table("Slices of cells");
    assert_eq!(rows.len(), slices.len());
    let mut end = 0;
    for (row, (name, records, cells_each, offset)) in rows.iter().zip(slices) {
        assert_eq!((row[0].as_str(), row[4].as_str()), (name, name.strip_suffix('s').expect("it is a plural")));
        let [cells, said, room, width] = [1, 2, 3, 5].map(|column| number(&row[column]));
        assert_eq!((said, room, width), (offset, records, cells_each), "{name}");
        let before = if name == "functions" { at["FUNCTIONS_FIRST"] } else { 0 };
        assert_eq!((offset, cells), (end, before + room * width), "{name}");
        end += cells * CELL;
    }
    assert_eq!(end, raw::CHECK_OUT_BYTES);
    assert_eq!(raw::FUNCTIONS_OFFSET, raw::OUT_BYTES, "reading has the first two");
    assert_eq!((at["FUNCTIONS_COUNT"], at["FUNCTIONS_FIRST"]), (0, raw::FUNCTIONS_FIRST));
    assert_eq!(at["FUNCTIONS_CELLS"] * CELL, raw::TABLE_BYTES, "a header table is this slice");
}

const CELL: usize = 4;

/// The cells of a record are all that a table has, and each of them is where the crate has it.
fn assert_cells(heading: &str, index: usize, cells: &[(&str, usize)]) {
    let rows = rows(heading, index);
    let names: Vec<&str> = rows.iter().map(|row| row[1].as_str()).collect();
    let expected: Vec<&str> = cells.iter().map(|(name, _)| *name).collect();
    assert_eq!(names, expected, "{heading}");
    for (row, (name, cell)) in rows.iter().zip(cells) {
        assert_eq!(number(&row[0]), *cell, "{name}");
    }
}

#[test]
fn cells_of_a_token() {
    let cells = [
        ("TOKEN_KIND", raw::TOKEN_KIND),
        ("TOKEN_VALUE", raw::TOKEN_VALUE),
        ("TOKEN_LINE", raw::TOKEN_LINE),
        ("TOKEN_PLACE", raw::TOKEN_PLACE),
    ];
    assert_cells("Cells of a token", 0, &cells);
    assert_eq!(cells.len(), raw::TOKEN_CELLS);
}

#[test]
fn cells_of_a_name() {
    assert_cells("Cells of a name", 0, &[("NAME_PLACE", raw::NAME_PLACE), ("NAME_LENGTH", raw::NAME_LENGTH)]);
    assert!(table("Cells of a name")[1][2].starts_with(&format!("1 to {},", raw::LONGEST_NAME)));
}

#[test]
fn fields_of_the_answer() {
    let fields = [
        ("number", offset_of!(ReadAnswer, number)),
        ("line", offset_of!(ReadAnswer, line)),
        ("place", offset_of!(ReadAnswer, place)),
        ("tokens", offset_of!(ReadAnswer, tokens)),
        ("names", offset_of!(ReadAnswer, names)),
    ];
    assert_eq!(numbered(&rows("The answer", 0)), fields);
    assert_struct("pitchsleet_read_answer", &[&fields]);
    assert_eq!(number_between("The struct of read has ", " bytes"), size_of::<ReadAnswer>());
    assert_eq!(number_between("aligned to ", "."), align_of::<ReadAnswer>());
}

#[test]
fn fields_of_check_s_answer() {
    let first = [
        (offset_of!(CheckAnswer, number), offset_of!(ReadAnswer, number)),
        (offset_of!(CheckAnswer, line), offset_of!(ReadAnswer, line)),
        (offset_of!(CheckAnswer, place), offset_of!(ReadAnswer, place)),
        (offset_of!(CheckAnswer, tokens), offset_of!(ReadAnswer, tokens)),
        (offset_of!(CheckAnswer, names), offset_of!(ReadAnswer, names)),
    ];
    assert!(first.iter().all(|(of_check, of_read)| of_check == of_read));
    let fields = [
        ("functions", offset_of!(CheckAnswer, functions)),
        ("items", offset_of!(CheckAnswer, items)),
        ("arguments", offset_of!(CheckAnswer, arguments)),
        ("blocks", offset_of!(CheckAnswer, blocks)),
        ("predecessors", offset_of!(CheckAnswer, predecessors)),
    ];
    assert_eq!(numbered(&rows("The answer", 1)), fields);
    assert_struct("pitchsleet_check_answer", &[&numbered(&rows("The answer", 0)), &fields]);
    assert_eq!(number_between("That of check has ", " bytes"), size_of::<CheckAnswer>());
    assert_eq!(align_of::<CheckAnswer>(), align_of::<ReadAnswer>());
}

/// A struct of the document has the fields of its tables, in their order.
fn assert_struct(name: &str, fields: &[&[(&str, usize)]]) {
    let fields: Vec<&str> = fields.concat().iter().map(|(field, _)| *field).collect();
    let expected = format!("struct {name} {{ uint32_t {}; }};", fields.join(", "));
    assert!(declarations_of_document().contains(&expected), "{expected}");
}

#[test]
fn cells_of_a_function() {
    assert_cells(
        "Cells of a function",
        0,
        &[
            ("FUNCTION_TOKEN", raw::FUNCTION_TOKEN),
            ("FUNCTION_NAME", raw::FUNCTION_NAME),
            ("FUNCTION_END", raw::FUNCTION_END),
            ("FUNCTION_PLACE", raw::FUNCTION_PLACE),
            ("FUNCTION_LENGTH", raw::FUNCTION_LENGTH),
            ("FUNCTION_LINE", raw::FUNCTION_LINE),
            ("FUNCTION_RESULT", raw::FUNCTION_RESULT),
            ("FUNCTION_TYPE", raw::FUNCTION_TYPE),
            ("FUNCTION_ITEMS", raw::FUNCTION_ITEMS),
            ("FUNCTION_ITEM_COUNT", raw::FUNCTION_ITEM_COUNT),
            ("FUNCTION_BLOCKS", raw::FUNCTION_BLOCKS),
            ("FUNCTION_BLOCK_COUNT", raw::FUNCTION_BLOCK_COUNT),
            ("FUNCTION_FORMAL_COUNT", raw::FUNCTION_FORMAL_COUNT),
            ("FUNCTION_FORMALS", raw::FUNCTION_FORMALS),
        ],
    );
    // The crate reads formals, arguments, results and operands alike: a name, and its type behind it.
    assert_cells("Cells of a function", 1, &[("FORMAL_NAME", 0), ("FORMAL_TYPE", 1)]);
    assert_cells("Cells of an argument", 0, &[("ARGUMENT_NAME", 0), ("ARGUMENT_TYPE", 1)]);
    let formal = constants()["FORMAL_WIDTH"];
    assert_eq!(raw::FUNCTION_FORMALS + raw::FORMALS * formal, raw::FUNCTION_CELLS);
}

#[test]
fn cells_of_a_block() {
    assert_cells(
        "Cells of a block",
        0,
        &[
            ("BLOCK_OPERATIONS", raw::BLOCK_OPERATIONS),
            ("BLOCK_OPERATION_COUNT", raw::BLOCK_OPERATION_COUNT),
            ("BLOCK_SUCCESSOR_COUNT", raw::BLOCK_SUCCESSOR_COUNT),
            ("BLOCK_SUCCESSOR", raw::BLOCK_SUCCESSORS),
            ("BLOCK_SECOND_SUCCESSOR", raw::BLOCK_SUCCESSORS + 1),
            ("BLOCK_PREDECESSORS", raw::BLOCK_PREDECESSORS),
            ("BLOCK_PREDECESSOR_COUNT", raw::BLOCK_PREDECESSOR_COUNT),
            ("BLOCK_DEAD", raw::BLOCK_DEAD),
        ],
    );
}

/// The text of each kind of item is checked, and must come back with the kind's number, and with something in just the
/// cells that the document gives it.
#[test]
fn cells_of_an_item() {
    assert_cells(
        "Cells of an item",
        0,
        &[
            ("ITEM_KIND", raw::ITEM_KIND),
            ("ITEM_TOKEN", raw::ITEM_TOKEN),
            ("ITEM_RESULT", raw::ITEM_RESULT),
            ("ITEM_RESULT_TYPE", raw::ITEM_RESULT + 1),
            ("ITEM_LEFT", raw::ITEM_LEFT),
            ("ITEM_LEFT_TYPE", raw::ITEM_LEFT + 1),
            ("ITEM_RIGHT", raw::ITEM_RIGHT),
            ("ITEM_RIGHT_TYPE", raw::ITEM_RIGHT + 1),
            ("ITEM_LABEL", raw::ITEM_RIGHT),
            ("ITEM_SECOND_LABEL", raw::ITEM_RIGHT + 1),
            ("ITEM_ARGUMENTS", raw::ITEM_RIGHT),
            ("ITEM_ARGUMENT_COUNT", raw::ITEM_RIGHT + 1),
        ],
    );
    // The name with the number 0 stands in no item.
    let before = "@zero { nop; } @g(a: int) { nop; } @h(a: int): int { ret a; } @f(n: int): int {";
    let texts = [
        ".l: ret n;", "x: bool = lt n n;", "x: int = id n;", "x: int = const 5;", "call @g n;", "x: int = call @h n;",
        "print n;", "nop;", "jmp .z; .z: ret n;", "br n .z .z; .z: ret n;", "", "ret n;",
    ];
    let rows = rows("Cells of an item", 1);
    assert_eq!(rows.len(), texts.len());
    for (row, text) in rows.iter().zip(texts) {
        let kind = number(&row[0]);
        let text = match kind {
            11 => "@f { ret; }".to_owned(),
            1 | 12 | 9 | 10 => format!("{before} {text} }}"),
            _ => format!("{before} {text} ret n; }}"),
        };
        let cells = last_function_s_first_item(&text);
        assert_eq!(cells[0] as usize, kind, "{text}");
        let filled = |cell: &str, first: u32, second: u32| match cell {
            "" => (first, second) == (0, 0),
            // A name or a label with no type.
            cell if cell.ends_with(", 0") => first != 0 && second == 0,
            // The run of arguments: one, behind none.
            "first argument, how many" => (first, second) == (0, 1),
            _ => first != 0 && second != 0,
        };
        let row: Vec<&str> = row.iter().map(String::as_str).collect();
        assert!(cells[1] != 0 && !row[3].is_empty(), "{text}: the token");
        for (column, cell) in [(4, 2), (5, 4), (6, 6)] {
            assert!(filled(row[column], cells[cell], cells[cell + 1]), "{text}: {}: {cells:?}", row[column]);
        }
    }
}

fn last_function_s_first_item(text: &str) -> Vec<u32> {
    let (mut out, mut message) = (vec![0; raw::CHECK_OUT_BYTES], [0; raw::MESSAGE_BYTES]);
    let answer = raw::check(text.as_bytes(), &mut out, &mut message);
    assert_eq!(answer.number, 0, "{text}");
    let cell = |slice: usize, at: usize| {
        let bytes = &out[slice + at * CELL..][..CELL];
        u32::from_le_bytes(bytes.try_into().expect("four bytes"))
    };
    let last = raw::FUNCTIONS_FIRST + (answer.functions as usize - 1) * raw::FUNCTION_CELLS;
    let first = cell(raw::FUNCTIONS_OFFSET, last + raw::FUNCTION_ITEMS) as usize;
    (0..raw::ITEM_CELLS).map(|i| cell(raw::ITEMS_OFFSET, first * raw::ITEM_CELLS + i)).collect()
}

/// The order of the functions' parameters, in the C of the document and in the Rust of the crate's declarations.
#[test]
fn parameters_of_the_functions() {
    let declared: Vec<&str> = RAW.split("    fn pitchsleet_").skip(1).collect();
    assert_eq!(declared.len(), 6, "read, check and recheck, on bytes and on cells");
    for declaration in declared {
        let name = declaration.split('(').next().expect("a split has a first part");
        let of_document = declarations_of_document();
        let of_document = of_document.iter().find_map(|one| one.split_once(&format!(" pitchsleet_{name}(")));
        let (_, of_document) = of_document.unwrap_or_else(|| panic!("the document has no pitchsleet_{name}"));
        let (_, of_declaration) = declaration.split_once('(').expect("it has parameters");
        assert_eq!(parameters(of_document, c_parameter), parameters(of_declaration, rust_parameter), "{name}");
    }
}

fn parameters(declaration: &str, each: fn(&str) -> (String, &'static str)) -> Vec<(String, &'static str)> {
    let inside = declaration.split(')').next().expect("a split has a first part");
    inside.split(',').map(str::trim).filter(|parameter| !parameter.is_empty()).map(each).collect()
}

/// `new` is a word of C++, so that C says `new_text` and `old_text` where Rust says `new` and `old`.
fn c_parameter(parameter: &str) -> (String, &'static str) {
    let name = parameter.rsplit([' ', '*']).next().expect("a name");
    let ty = match parameter.strip_suffix(name).map(str::trim) {
        Some("const uint8_t *") => "*const u8",
        Some("uint8_t *") => "*mut u8",
        Some("const uint32_t *") => "*const u32",
        Some("uint32_t *") => "*mut u32",
        Some("size_t") => "usize",
        Some("uint32_t") => "u32",
        other => panic!("a type that the function doesn't take: {other:?}"),
    };
    (name.replace("_text", ""), ty)
}

fn rust_parameter(parameter: &str) -> (String, &'static str) {
    let (name, ty) = parameter.split_once(": ").expect("a name and a type");
    let ty = ["*const u8", "*mut u8", "*const u32", "*mut u32", "usize", "u32"].into_iter().find(|known| *known == ty);
    (name.to_owned(), ty.expect("a type that C has"))
}

/// The text of each kind is read, and must come back with the kind's number in its record and as the variant with its word.
#[test]
fn kinds_of_tokens() {
    let rows = table("Kinds");
    assert_eq!(rows.len(), 38);
    for (row, expected) in rows.iter().zip(1..) {
        let (kind, word) = (number(&row[0]), row[2].as_str());
        assert_eq!(kind, expected);
        let text = match word {
            "local" => "x",
            "global" => "@x",
            "label" => ".x",
            "integer" => "-7",
            "END_OF_FILE" => "",
            word => word,
        };
        assert_eq!(first_kind(text), kind, "{word}");
        let mut reader = Reader::new();
        let tokens = reader.read(text.as_bytes()).expect("accepted");
        let token = tokens.get(0).expect("a token");
        assert_eq!(token.value.kind(), word);
        assert_eq!(token.spelling, text);
        let carries = match token.value {
            TokenValue::Integer(_) => "integer",
            value if value.identifier().is_some() => "name",
            _ => "",
        };
        assert_eq!(row[3], carries, "{word}");
    }
}

fn first_kind(text: &str) -> usize {
    let (mut out, mut message) = (vec![0; raw::OUT_BYTES], [0; raw::MESSAGE_BYTES]);
    raw::read(text.as_bytes(), &mut out, &mut message);
    let kind = &out[raw::TOKENS_OFFSET + raw::TOKEN_KIND * CELL..];
    u32::from_le_bytes([kind[0], kind[1], kind[2], kind[3]]) as usize
}

/// Each refusal of the document, from a text that has it.
#[test]
fn refusals() {
    let texts: [(usize, Vec<u8>); 9] = [
        (1, b"\n\x80".to_vec()),
        (2, b"\n /*".to_vec()),
        (3, b"\n c$".to_vec()),
        (4, b"\n x-".to_vec()),
        (31, vec![b' '; raw::TEXT_BYTES + 1]),
        (32, vec![b';'; raw::TOKENS]),
        (33, (0..=raw::NAMES).flat_map(|i| format!("x{i}\n").into_bytes()).collect()),
        (34, [b"\n".to_vec(), vec![b'x'; raw::LONGEST_NAME + 1]].concat()),
        (43, b"\n x 2147483648".to_vec()),
    ];
    let mut rows = table("Refusals");
    rows.retain(|row| row[0] != "30");
    let mut reader = Reader::new();
    assert_eq!(rows.len(), texts.len());
    for (row, (expected, text)) in rows.iter().zip(&texts) {
        let refusal = reader.read(text).expect_err("refused");
        assert_row(row, *expected, &refusal);
    }
}

/// A refusal at no token: its number, line, place and message.
fn assert_row(row: &[String], expected: usize, refusal: &Refusal) {
    assert_eq!((number(&row[0]), refusal.number() as usize), (expected, expected));
    for (cell, found) in [(&row[2], refusal.line() as usize), (&row[3], refusal.place())] {
        // A cell that is no number says of what the line or the place is.
        assert!(cell.parse().is_ok_and(|said: usize| said == found) || cell.starts_with("of "), "{expected}: {cell}");
    }
    let words = row[4].replace("'c'. with the byte itself for c", "'$'.");
    let message = format!("[line {}] Error : {words}\n", refusal.line());
    assert_eq!(refusal.message(), message.as_bytes());
}

/// Each refusal of the document that recheck alone has, from a new text that has it.
#[test]
fn refusals_of_recheck() {
    let mut reader = Reader::new();
    let headers = reader.check(b"@g { nop; }\n@f { nop; }").expect("accepted").headers();
    let texts = [
        (40, 1, "@f { nop; } ", 2, 0),
        (40, 1, "@f { nop; }\n@g { nop; }", 3, 12),
        (41, 1, "@g { nop; }", 2, 0),
        (42, 2, "@f { nop; }", 0, 0),
    ];
    let rows = table("Refusals of recheck");
    assert_eq!(rows.len(), texts.len());
    for (row, (expected, function, new, line, place)) in rows.iter().zip(texts) {
        let refusal = reader.recheck(&headers, function, new.as_bytes()).expect_err("refused");
        assert_row(row, expected, &refusal);
        assert_eq!((refusal.line(), refusal.place()), (line, place), "{new}");
    }
}

/// Each refusal of the document that check alone has, from a text that has it.
#[test]
fn refusals_of_check() {
    let many = |count: usize, each: &dyn Fn(usize) -> String| (0..count).map(each).collect::<String>();
    let texts: [(usize, String, &str); 22] = [
        (5, "@f { nop }".to_owned(), "}"),
        (6, "@f { print 5; }".to_owned(), "5"),
        (7, "x".to_owned(), "x"),
        (8, "@f { jmp x; }".to_owned(), "x"),
        (9, "@f { x: 5 }".to_owned(), "5"),
        (10, "@f { x: int = const x; }".to_owned(), "const"),
        (11, "@f { x: int = nop; }".to_owned(), "nop"),
        (12, "@f { ret; x: int = const 7; }".to_owned(), "7"),
        (13, "@f { nop; .a: nop; .a: nop; }".to_owned(), ".a: nop; }"),
        (14, "@f { br x .a .a; }".to_owned(), "br"),
        (15, "@f { x: int = const 1; x: bool = const true; }".to_owned(), "true"),
        (16, "@f { ret x; }".to_owned(), "ret"),
        (17, "@f { x: int = const true; }".to_owned(), "true"),
        (18, "@f { x: int = call @f; }".to_owned(), "call"),
        (19, "@f: int { ret; }".to_owned(), "ret"),
        (20, "@f(a: int) { call @f; }".to_owned(), "call"),
        (21, "@f: int { nop; }".to_owned(), "nop"),
        (22, "@f { }".to_owned(), "@f"),
        (35, many(65, &|i| format!("@f{i} {{ nop; }} ")), "@f64"),
        (36, format!("@f({}", many(17, &|i| format!("p{i}: int, "))), "p16"),
        (37, format!("@f {{ call @f{}", many(17, &|i| format!(" p{i}"))), "p16"),
        (38, format!("@f {{ {}", many(256, &|i| format!(".l{i}: "))), ".l255"),
    ];
    let rows = table("Refusals of check");
    assert_eq!(rows.len(), texts.len());
    let mut reader = Reader::new();
    for (row, (expected, text, token)) in rows.iter().zip(&texts) {
        let refusal = reader.check(text.as_bytes()).expect_err("refused");
        assert_eq!((number(&row[0]), refusal.number() as usize), (*expected, *expected));
        assert!(text[refusal.place()..].starts_with(token), "{expected}: {}", &text[refusal.place()..]);
        // What the document's words stand for in these texts.
        let words = row[3].split(" with the token ").next().expect("a split has a first part");
        let words = match expected {
            5 => words.replace("'t'", "';'"),
            13 => words.replace("NAME", ".a"),
            14 => words.replace("NAME", ".a"),
            15 => words.replace("NAME", "x").replace("'f'", "'bool'").replace("'e'", "'int'"),
            16 => words.replace("NAME", "x"),
            17 => words.replace("'e'", "'int'").replace("'f'", "'bool'"),
            20 => words.replace("n arguments expected, got m", "1 arguments expected, got 0"),
            _ => words.to_owned(),
        };
        let shown = if *token == "x" { if *expected == 7 { "local_0" } else { "local_1" } } else { token };
        let message = format!("[line 1] Error {}\n", words.replace("ITEM", &format!("at '{shown}'")));
        assert_eq!(String::from_utf8_lossy(refusal.message()), message);
    }
}

/// The document's bounds, with what the thread itself needs.
#[test]
fn stack_of_a_call() {
    let read = || {
        let mut reader = Reader::new();
        reader.read(b"@f { nop; }").is_ok() && reader.read(b"$").is_err()
    };
    let check = || {
        let mut reader = Reader::new();
        let loops: String = (0..255).map(|i| format!(".l{i}: br q .l{} .l{};", (i + 1) % 255, i / 2)).collect();
        let functions = "@f(a: int) { call @f a; }".repeat(60);
        let texts = [format!("@f {{ {loops} }}"), functions];
        texts.iter().all(|text| reader.check(text.as_bytes()).is_ok()) && reader.check(b"@f { ret x; }").is_err()
    };
    runs_in(number_between("A call of read needs less than ", " KiB of stack"), read);
    let recheck = || {
        let mut reader = Reader::new();
        let functions: String = (0..64).map(|i| format!("@f{i}(a: int) {{ nop; }}\n")).collect();
        let headers = reader.check(functions.as_bytes()).expect("accepted").headers();
        let loops: String = (0..255).map(|i| format!(".l{i}: br q .l{} .l{};", (i + 1) % 255, i / 2)).collect();
        let calls: String = (0..64).map(|i| format!("call @f{i} a;")).collect();
        let texts = [format!("@f63(a: int) {{ {loops} }}"), format!("@f63(a: int) {{ {calls} }}")];
        texts.iter().all(|text| reader.recheck(&headers, 63, text.as_bytes()).is_ok())
            && reader.recheck(&headers, 63, b"@f63(a: int) { ret x; }").is_err()
            && reader.recheck(&headers, 64, b"").is_err()
    };
    runs_in(number_between("A call of check needs less than ", " KiB"), check);
    runs_in(number_between("A call of recheck needs less than ", " KiB"), recheck);
}

fn runs_in(kibibytes: usize, call: impl FnOnce() -> bool + Send + 'static) {
    let thread = std::thread::Builder::new().stack_size((kibibytes + 8) * 1024);
    assert!(thread.spawn(call).expect("a thread").join().expect("no panic"));
}

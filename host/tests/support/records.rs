//! What the slices hold of an answer, as docs/INTERFACE.md lays it out: written from the document, without this crate's own
//! decoding.
use pitchsleet::raw::CheckAnswer;

use super::said::{Said, SaidBlock, SaidFunction, SaidName, SaidOperation, SaidToken, SaidVariable, Ty};

/// The cells of an accepted text, slice by slice. Those of a refused one are empty.
#[derive(Clone, Default)]
pub struct Cells {
    pub tokens: Vec<u32>,
    pub names: Vec<u32>,
    /// The count, and then the rows.
    pub functions: Vec<u32>,
    pub items: Vec<u32>,
    pub arguments: Vec<u32>,
    pub blocks: Vec<u32>,
    pub predecessors: Vec<u32>,
}

/// How many records each slice has, in the answer's order.
#[derive(Default, PartialEq, Eq)]
pub struct Counts {
    pub tokens: u32,
    pub names: u32,
    pub functions: u32,
    pub items: u32,
    pub arguments: u32,
    pub blocks: u32,
    pub predecessors: u32,
}

/// The sizes of the slices, in cells, in their order in `out`.
pub const SIZES: [usize; 7] = [16_384, 2_048, 2_881, 24_576, 6_928, 8_192, 2_048];

/// The cells of bytes; fewer than four bytes at the end are none.
pub fn cells_of(bytes: &[u8]) -> Vec<u32> {
    let (cells, _) = bytes.as_chunks::<4>();
    cells.iter().map(|cell| u32::from_le_bytes(*cell)).collect()
}

impl Cells {
    /// The cells that a check or a recheck has written to `out`: as many of each slice as the answer counts records.
    pub fn of_out(answer: &CheckAnswer, out: &[u8]) -> Self {
        let CheckAnswer { number, tokens, names, functions, items, arguments, blocks, predecessors, .. } = *answer;
        let functions = if number == 0 { 1 + 45 * functions } else { 0 };
        let counts = [4 * tokens, 2 * names, functions, 8 * items, 2 * arguments, 8 * blocks, predecessors];
        let mut rest = out;
        let mut slice = |at: usize| {
            let (room, behind) = rest.split_at(4 * SIZES[at]);
            rest = behind;
            cells_of(&room[..4 * counts[at] as usize])
        };
        Self {
            tokens: slice(0),
            names: slice(1),
            functions: slice(2),
            items: slice(3),
            arguments: slice(4),
            blocks: slice(5),
            predecessors: slice(6),
        }
    }

    /// The slices in their order.
    pub fn slices(&self) -> [&[u32]; 7] {
        let Self { tokens, names, functions, items, arguments, blocks, predecessors } = self;
        [tokens, names, functions, items, arguments, blocks, predecessors]
    }

    pub fn counts(&self) -> Counts {
        let records = |cells: &[u32], width: usize| (cells.len() / width) as u32;
        Counts {
            tokens: records(&self.tokens, 4),
            names: records(&self.names, 2),
            functions: self.functions.first().copied().unwrap_or(0),
            items: records(&self.items, 8),
            arguments: records(&self.arguments, 2),
            blocks: records(&self.blocks, 8),
            predecessors: records(&self.predecessors, 1),
        }
    }

    /// The cells as bytes, each slice in its room, the first so many slices.
    pub fn bytes(&self, slices: usize) -> Vec<u8> {
        let mut out = Vec::new();
        for (cells, size) in self.slices().into_iter().zip(SIZES).take(slices) {
            let end = out.len() + size * 4;
            out.extend(cells.iter().flat_map(|cell| cell.to_le_bytes()));
            out.resize(end, 0);
        }
        out
    }

    /// The cells of an answer to a text that is read.
    pub fn of_read(said: &Said) -> Self {
        let Said::Accepted { tokens, names, .. } = said else { return Self::default() };
        Self {
            tokens: tokens.iter().flat_map(token_record).collect(),
            names: names.iter().flat_map(name_record).collect(),
            ..Self::default()
        }
    }

    /// The cells of an answer to a text that is checked.
    pub fn of_check(said: &Said) -> Self {
        let Said::Accepted { functions, .. } = said else { return Self::default() };
        let mut cells = Self::of_read(said);
        cells.functions.push(functions.len() as u32);
        for function in functions {
            cells.function(function);
        }
        cells
    }

    fn function(&mut self, function: &SaidFunction) {
        let (first_item, first_block) = (self.items.len() / 8, self.blocks.len() / 8);
        for (number, block) in function.blocks.iter().enumerate() {
            for label in function.labels.iter().filter(|label| label.block == number) {
                self.item([1, label.token, 0, 0, 0, 0, label.name, 0]);
            }
            self.block(block);
        }
        let (items, blocks) = (self.items.len() / 8 - first_item, self.blocks.len() / 8 - first_block);
        let mut row = vec![
            function.token,
            function.name,
            function.end_token,
            function.place,
            function.length,
            function.line as usize,
            type_cell(function.result),
            function.type_number,
            first_item,
            items,
            first_block,
            blocks,
            function.formals.len(),
        ];
        row.extend(function.formals.iter().flat_map(|formal| variable_cells(*formal)));
        row.resize(45, 0);
        self.functions.extend(row.into_iter().map(|cell| cell as u32));
    }

    fn block(&mut self, block: &SaidBlock) {
        let first = self.items.len() / 8;
        for operation in &block.operations {
            self.operation(operation);
        }
        let successor = |way: usize| block.successors.get(way).copied().unwrap_or(0);
        let record = [
            first,
            block.operations.len(),
            block.successors.len(),
            successor(0),
            successor(1),
            self.predecessors.len(),
            block.predecessors.len(),
            usize::from(block.is_dead),
        ];
        self.blocks.extend(record.map(|cell| cell as u32));
        self.predecessors.extend(block.predecessors.iter().map(|&from| from as u32));
    }

    fn operation(&mut self, operation: &SaidOperation) {
        let kind = match (operation.kind, operation.result.is_some(), operation.operands.len()) {
            ("binary", ..) => 2,
            ("unary", ..) => 3,
            ("const", ..) => 4,
            ("call", false, _) => 5,
            ("call", true, _) => 6,
            ("print", ..) => 7,
            ("nop", ..) => 8,
            ("jmp", ..) => 9,
            ("br", ..) => 10,
            ("ret", _, 0) => 11,
            _ => 12,
        };
        let [result, result_type] = operation.result.map_or([0, 0], variable_cells);
        let [left, left_type, right, right_type] = match (operation.kind, &operation.operands[..]) {
            ("call", arguments) => {
                let [callee, ty] = variable_cells(operation.callee.expect("a call has a callee"));
                let first = self.arguments.len() / 2;
                self.arguments
                    .extend(arguments.iter().flat_map(|argument| variable_cells(*argument).map(|cell| cell as u32)));
                [callee, ty, first, arguments.len()]
            }
            (_, [left, right]) => {
                [variable_cells(*left), variable_cells(*right)].concat().try_into().expect("four cells")
            }
            (_, operands) => {
                let [left, ty] = operands.first().copied().map_or([0, 0], variable_cells);
                let label = |way: usize| operation.labels.get(way).copied().unwrap_or(0);
                [left, ty, label(0), label(1)]
            }
        };
        self.item([kind, operation.token, result, result_type, left, left_type, right, right_type]);
    }

    fn item(&mut self, record: [usize; 8]) {
        self.items.extend(record.map(|cell| cell as u32));
    }
}

/// The kinds of tokens in the order of the Rust's enum, which numbers them from 1.
pub const KINDS: [&str; 38] = [
    "local", "global", "label", "integer", "add", "mul", "sub", "div", "mod", "true", "false", "eq", "lt", "gt", "le",
    "ge", "not", "and", "or", "jmp", "br", "call", "ret", "=", "(", ")", "{", "}", ":", ";", ",", "int", "bool",
    "const", "print", "nop", "id", "END_OF_FILE",
];

fn token_record(token: &SaidToken) -> [u32; 4] {
    let kind = KINDS.iter().position(|kind| *kind == token.kind).expect("a kind") as u32 + 1;
    let value = token.value.unwrap_or(0) as u32;
    [kind, value, token.line, token.place as u32]
}

fn name_record(name: &SaidName) -> [u32; 2] {
    [name.place as u32, name.spelling.len() as u32]
}

fn variable_cells(variable: SaidVariable) -> [usize; 2] {
    [variable.name, type_cell(variable.ty)]
}

fn type_cell(ty: Ty) -> usize {
    match ty {
        Ty::Placeholder => 0,
        Ty::Int => 1,
        Ty::Bool => 2,
        Ty::Void => 3,
        Ty::Fn(number) => 4 + number,
    }
}

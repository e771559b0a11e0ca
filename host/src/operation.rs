//! Operations of a block.
use core::fmt::{self, Debug, Formatter};

use crate::operator::{BinaryOperator, Constant, UnaryOperator};
use crate::raw::{self, ARGUMENT_CELLS, ITEM_CELLS};
use crate::reader::Tokens;
use crate::records::{index, record};
use crate::token::{Identifier, TokenValue};
use crate::types::Variable;

/// An operation of a block: what it does, and the token that stands for it.
#[derive(Clone, Copy, Debug, PartialEq, Eq)]
pub struct Operation<'r> {
    /// The index of its token among the text's: that of its word, or of the value of a constant. An added `ret` has the
    /// token of the operation before it.
    pub token: usize,
    /// What it does.
    pub value: OperationValue<'r>,
}

/// What an operation does.
#[derive(Clone, Copy, Debug, PartialEq, Eq)]
pub enum OperationValue<'r> {
    /// A result of two operands.
    Binary {
        /// What is made of them.
        operator: BinaryOperator,
        /// What is set.
        result: Variable,
        /// The first operand.
        left: Variable,
        /// The second operand.
        right: Variable,
    },
    /// A result of one operand.
    Unary {
        /// What is made of it.
        operator: UnaryOperator,
        /// What is set.
        result: Variable,
        /// The operand.
        operand: Variable,
    },
    /// A result that is a constant.
    Const {
        /// The constant.
        value: Constant,
        /// What is set.
        result: Variable,
    },
    /// A call of a function.
    Call {
        /// The function, whose type is a [`Type::Fn`](crate::Type::Fn).
        callee: Variable,
        /// What is set, where the function has a result.
        result: Option<Variable>,
        /// What it is called with.
        arguments: Arguments<'r>,
    },
    /// A value is printed.
    Print {
        /// The value; its type isn't kept.
        operand: Variable,
    },
    /// Nothing is done.
    Nop,
    /// The end of a block that goes on with another.
    Jump {
        /// The other's label.
        target: Identifier,
    },
    /// The end of a block that goes on with one of two.
    Branch {
        /// What decides; it is never looked up, and its type isn't kept.
        condition: Variable,
        /// The label of the block that follows where it is true: the first successor.
        then: Identifier,
        /// The label of the block that follows where it is false: the second successor.
        otherwise: Identifier,
    },
    /// The end of a block that ends the function.
    Return {
        /// What the function gives, where it has a result; its type isn't kept.
        value: Option<Variable>,
        /// Whether it isn't written in the text: a block of a void function that doesn't end in `jmp`, `br` or `ret` has
        /// a `ret` added.
        added: bool,
    },
}

impl<'r> Operation<'r> {
    /// The operation of an item record, whose token and arguments stand elsewhere.
    pub(crate) fn from_record(record: &[u32; ITEM_CELLS], tokens: &Tokens<'_, '_>, arguments: &'r [u32]) -> Self {
        let token = index(record, raw::ITEM_TOKEN);
        let word = tokens.get(token).expect("an operation's token is one of the text's").value;
        let result = Variable::from_cells(record, raw::ITEM_RESULT);
        let left = Variable::from_cells(record, raw::ITEM_LEFT);
        let last = [index(record, raw::ITEM_RIGHT), index(record, raw::ITEM_RIGHT + 1)];
        let labels = last.map(Identifier);
        let call = |result| {
            let [first, count] = last;
            let records = &arguments[first * ARGUMENT_CELLS..][..count * ARGUMENT_CELLS];
            OperationValue::Call { callee: left, result, arguments: Arguments { records } }
        };
        let ret = |value| OperationValue::Return { value, added: word != TokenValue::Return };
        let value = match record[raw::ITEM_KIND] {
            2 => {
                let operator = BinaryOperator::of(word).expect("a binary operation's word is one of the twelve");
                let right = Variable::from_cells(record, raw::ITEM_RIGHT);
                OperationValue::Binary { operator, result, left, right }
            }
            3 => {
                let operator = UnaryOperator::of(word).expect("a unary operation's word is id or not");
                OperationValue::Unary { operator, result, operand: left }
            }
            4 => OperationValue::Const { value: Constant::of(word).expect("a constant's token is its value"), result },
            5 => call(None),
            6 => call(Some(result)),
            7 => OperationValue::Print { operand: left },
            8 => OperationValue::Nop,
            9 => OperationValue::Jump { target: labels[0] },
            10 => OperationValue::Branch { condition: left, then: labels[0], otherwise: labels[1] },
            11 => ret(None),
            12 => ret(Some(left)),
            kind => unreachable!("an operation's kind is 2 to 12, not {kind}"),
        };
        Self { token, value }
    }

    /// A word for the kind: `binary`, `unary`, `const`, `call`, `print`, `nop`, `jmp`, `br` or `ret`.
    #[must_use]
    pub fn kind(&self) -> &'static str {
        match self.value {
            OperationValue::Binary { .. } => "binary",
            OperationValue::Unary { .. } => "unary",
            OperationValue::Const { .. } => "const",
            OperationValue::Call { .. } => "call",
            OperationValue::Print { .. } => "print",
            OperationValue::Nop => "nop",
            OperationValue::Jump { .. } => "jmp",
            OperationValue::Branch { .. } => "br",
            OperationValue::Return { .. } => "ret",
        }
    }

    /// What it sets, if anything.
    #[must_use]
    pub fn result(&self) -> Option<Variable> {
        match self.value {
            OperationValue::Binary { result, .. }
            | OperationValue::Unary { result, .. }
            | OperationValue::Const { result, .. } => Some(result),
            OperationValue::Call { result, .. } => result,
            _ => None,
        }
    }

    /// The function that it calls, if it is a call.
    #[must_use]
    pub fn callee(&self) -> Option<Variable> {
        match self.value {
            OperationValue::Call { callee, .. } => Some(callee),
            _ => None,
        }
    }

    /// The values that it uses, in order: operands, arguments, the condition of a `br`.
    pub fn operands(&self) -> impl Iterator<Item = Variable> + Clone + use<'r> {
        let (one, two, arguments) = match self.value {
            OperationValue::Binary { left, right, .. } => (Some(left), Some(right), None),
            OperationValue::Unary { operand, .. } | OperationValue::Print { operand } => (Some(operand), None, None),
            OperationValue::Branch { condition, .. } => (Some(condition), None, None),
            OperationValue::Return { value, .. } => (value, None, None),
            OperationValue::Call { arguments, .. } => (None, None, Some(arguments)),
            OperationValue::Const { .. } | OperationValue::Nop | OperationValue::Jump { .. } => (None, None, None),
        };
        one.into_iter().chain(two).chain(arguments.into_iter().flatten())
    }

    /// The labels that it jumps to, in order: those of the block's successors.
    pub fn labels(&self) -> impl Iterator<Item = Identifier> + Clone + use<> {
        let (one, two) = match self.value {
            OperationValue::Jump { target } => (Some(target), None),
            OperationValue::Branch { then, otherwise, .. } => (Some(then), Some(otherwise)),
            _ => (None, None),
        };
        one.into_iter().chain(two)
    }

    /// Whether it ends a block: `jmp`, `br` or `ret`.
    #[must_use]
    pub fn is_terminator(&self) -> bool {
        matches!(
            self.value,
            OperationValue::Jump { .. } | OperationValue::Branch { .. } | OperationValue::Return { .. }
        )
    }

    /// Whether it isn't written in the text: a `ret` that was added to a block of a void function.
    #[must_use]
    pub fn is_added(&self) -> bool {
        matches!(self.value, OperationValue::Return { added: true, .. })
    }
}

/// The arguments of a call.
///
/// ```
/// use pitchsleet::{OperationValue, Reader};
///
/// let mut reader = Reader::new();
/// let unit = reader.check(b"@f(a: int, b: bool) { call @f a b; }")?;
/// let operation = unit.functions().flat_map(|f| f.blocks()).flat_map(|b| b.operations()).next();
/// if let Some(OperationValue::Call { arguments, .. }) = operation.map(|operation| operation.value) {
///     for argument in arguments {
///         println!("{}: {}", unit.spelling(argument.name), argument.ty);
///     }
///     assert_eq!(arguments.len(), 2);
/// }
/// # Ok::<(), pitchsleet::Refusal>(())
/// ```
#[derive(Clone, Copy, PartialEq, Eq)]
pub struct Arguments<'r> {
    records: &'r [u32],
}

impl<'r> Arguments<'r> {
    /// How many there are: at most 16.
    #[must_use]
    pub fn len(&self) -> usize {
        self.records.len() / ARGUMENT_CELLS
    }

    /// Whether there is none.
    #[must_use]
    pub fn is_empty(&self) -> bool {
        self.records.is_empty()
    }

    /// The argument at an index.
    #[must_use]
    pub fn get(&self, index: usize) -> Option<Variable> {
        record::<ARGUMENT_CELLS>(self.records, index).map(|record| Variable::from_cells(record, 0))
    }

    /// The arguments, in order.
    #[must_use]
    pub fn iter(&self) -> ArgumentsIter<'r> {
        let (records, _) = self.records.as_chunks();
        ArgumentsIter { records: records.iter() }
    }
}

impl Debug for Arguments<'_> {
    fn fmt(&self, f: &mut Formatter<'_>) -> fmt::Result {
        f.debug_list().entries(self).finish()
    }
}

each! {
    /// The arguments of a call, in order; [`Arguments::iter`] gives it.
    ArgumentsIter of Arguments: records of [u32; ARGUMENT_CELLS] as Variable,
    |record| Variable::from_cells(record, 0)
}

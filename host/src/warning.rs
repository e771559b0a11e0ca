//! What an accepted text says that it may not mean.
use core::fmt::{self, Display, Formatter};

use crate::operation::OperationValue;
use crate::token::Identifier;
use crate::unit::{Function, Unit};

/// Something in an accepted text that doesn't do what it seems to. The text runs as it is; whether it is meant so, its
/// writer knows.
///
/// [`Unit::warnings`] finds them. No proof speaks of them: they are a reading aid of this crate.
///
/// ```
/// use pitchsleet::{Reader, WarningKind};
///
/// let mut reader = Reader::new();
/// let unit = reader.check(b"@f { frost: bool = const true; br forst .pumps .end; .pumps: nop; .end: ret; }")?;
/// let warnings = unit.warnings();
/// assert_eq!(warnings[0].kind, WarningKind::NeverSet);
/// assert_eq!(warnings[0].to_string(), "no operation of @f sets the condition 'forst', and no formal is named so");
/// assert_eq!(warnings[1].kind, WarningKind::NoFallThrough);
/// assert_eq!(warnings[1].spelling, ".end");
/// # Ok::<(), pitchsleet::Refusal>(())
/// ```
#[derive(Clone, Copy, Debug, PartialEq, Eq)]
pub struct Warning<'t> {
    /// What it is.
    pub kind: WarningKind,
    /// Where it is: a byte's index in the text. [`Lines`](crate::Lines) has its line and column.
    pub place: usize,
    /// What stands there: a label or a name.
    pub spelling: &'t str,
    /// The name of the function that it is of.
    pub function: &'t str,
    /// Whether the name is a `br`'s condition, and not what a `print` prints.
    is_condition: bool,
}

/// What a [`Warning`] is.
#[derive(Clone, Copy, Debug, PartialEq, Eq, PartialOrd, Ord, Hash)]
#[non_exhaustive]
pub enum WarningKind {
    /// A block of a void function that doesn't end in `jmp`, `br` or `ret`, although a label follows. It returns there,
    /// by a `ret` that is added, and doesn't go on with that label's block. The place is the label's.
    NoFallThrough,
    /// A block that no edge enters, so that it never runs. The place is that of its label.
    DeadBlock,
    /// A name that a `br` goes by or a `print` prints, which no operation of the function sets and no formal is. It isn't
    /// looked up when the text is checked, but will be when the rule runs.
    NeverSet,
}

impl WarningKind {
    /// A word for it: `no-fall-through`, `dead-block` or `never-set`.
    #[must_use]
    pub fn word(self) -> &'static str {
        match self {
            Self::NoFallThrough => "no-fall-through",
            Self::DeadBlock => "dead-block",
            Self::NeverSet => "never-set",
        }
    }
}

/// A sentence for whoever wrote the text, without its place.
impl Display for Warning<'_> {
    fn fmt(&self, f: &mut Formatter<'_>) -> fmt::Result {
        let (what, function) = (self.spelling, self.function);
        match self.kind {
            WarningKind::NoFallThrough => {
                write!(
                    f,
                    "the block before '{what}' has no jmp, br or ret: it returns, and doesn't go on with '{what}'"
                )
            }
            WarningKind::DeadBlock => write!(f, "the block '{what}' of {function} is dead: nothing goes to it"),
            WarningKind::NeverSet => {
                let used = if self.is_condition { "the condition" } else { "what is printed," };
                write!(f, "no operation of {function} sets {used} '{what}', and no formal is named so")
            }
        }
    }
}

impl<'t> Unit<'_, 't> {
    /// What the text says that it may not mean, in the order of the text; of what stands at one place, in the order of
    /// [`WarningKind`].
    #[must_use]
    pub fn warnings(&self) -> Vec<Warning<'t>> {
        let mut warnings = Vec::new();
        for function in self.functions() {
            push_blocks(&mut warnings, self, &function);
            push_never_set(&mut warnings, self, &function);
        }
        warnings.sort_by_key(|warning| (warning.place, warning.kind));
        warnings
    }

    /// A warning at a token.
    fn warning(&self, kind: WarningKind, function: &Function<'_, 't>, token: usize) -> Warning<'t> {
        let token = self.tokens().get(token).expect("a function's tokens are the text's");
        Warning {
            kind,
            place: token.place,
            spelling: token.spelling,
            function: function.name().spelling,
            is_condition: false,
        }
    }
}

/// Every block but the first has one label: two in a row would leave an empty block.
fn push_blocks<'t>(warnings: &mut Vec<Warning<'t>>, unit: &Unit<'_, 't>, function: &Function<'_, 't>) {
    let mut returns_by_itself = false;
    for block in function.blocks() {
        if let (true, Some(label)) = (block.number() > 0, block.labels().next()) {
            if returns_by_itself {
                warnings.push(unit.warning(WarningKind::NoFallThrough, function, label.token));
            }
            if block.is_dead() {
                warnings.push(unit.warning(WarningKind::DeadBlock, function, label.token));
            }
        }
        returns_by_itself = block.operations().any(|operation| operation.is_added());
    }
}

fn push_never_set<'t>(warnings: &mut Vec<Warning<'t>>, unit: &Unit<'_, 't>, function: &Function<'_, 't>) {
    let operations = || function.blocks().flat_map(|block| block.operations());
    let mut is_set = vec![false; unit.tokens().names().len()];
    let results = operations().filter_map(|operation| operation.result());
    for Identifier(name) in function.formals().chain(results).map(|variable| variable.name) {
        is_set[name] = true;
    }
    for operation in operations() {
        let (used, is_condition) = match operation.value {
            OperationValue::Print { operand } => (operand.name, false),
            OperationValue::Branch { condition, .. } => (condition.name, true),
            _ => continue,
        };
        if !is_set[used.0] {
            // The name is the token behind the operation's word.
            let warning = unit.warning(WarningKind::NeverSet, function, operation.token + 1);
            warnings.push(Warning { is_condition, ..warning });
        }
    }
}

//! The iterator over tokens.
use core::iter::FusedIterator;
use core::ops::Range;

use crate::reader::Tokens;
use crate::token::Token;

/// The tokens of a text, in order; [`Tokens::iter`] gives it.
#[derive(Clone, Debug)]
pub struct TokensIter<'r, 't> {
    tokens: Tokens<'r, 't>,
    left: Range<usize>,
}

impl<'r, 't> TokensIter<'r, 't> {
    pub(crate) fn new(tokens: Tokens<'r, 't>) -> Self {
        let left = 0..tokens.len();
        Self { tokens, left }
    }
}

impl<'t> Iterator for TokensIter<'_, 't> {
    type Item = Token<'t>;

    fn next(&mut self) -> Option<Token<'t>> {
        let index = self.left.next()?;
        self.tokens.get(index)
    }

    fn nth(&mut self, skipped: usize) -> Option<Token<'t>> {
        let index = self.left.nth(skipped)?;
        self.tokens.get(index)
    }

    fn size_hint(&self) -> (usize, Option<usize>) {
        self.left.size_hint()
    }
}

impl DoubleEndedIterator for TokensIter<'_, '_> {
    fn next_back(&mut self) -> Option<Self::Item> {
        let index = self.left.next_back()?;
        self.tokens.get(index)
    }
}

impl ExactSizeIterator for TokensIter<'_, '_> {}
impl FusedIterator for TokensIter<'_, '_> {}

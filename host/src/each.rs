//! Iterators over cells, which give each record as what it stands for.

/// An iterator over a slice of cells or of records, and `IntoIterator` for what is made of such a slice.
macro_rules! each {
    ($(#[$about:meta])* $iter:ident of $list:ident: $cells:ident of $record:ty as $item:ty, $each:expr) => {
        $(#[$about])*
        #[derive(Clone, Debug)]
        pub struct $iter<'r> {
            $cells: core::slice::Iter<'r, $record>,
        }

        impl Iterator for $iter<'_> {
            type Item = $item;

            fn next(&mut self) -> Option<$item> {
                self.$cells.next().map($each)
            }

            fn size_hint(&self) -> (usize, Option<usize>) {
                self.$cells.size_hint()
            }
        }

        impl DoubleEndedIterator for $iter<'_> {
            fn next_back(&mut self) -> Option<$item> {
                self.$cells.next_back().map($each)
            }
        }

        impl ExactSizeIterator for $iter<'_> {}
        impl core::iter::FusedIterator for $iter<'_> {}

        impl<'r> IntoIterator for $list<'r> {
            type Item = $item;
            type IntoIter = $iter<'r>;

            fn into_iter(self) -> $iter<'r> {
                self.iter()
            }
        }

        impl<'r> IntoIterator for &$list<'r> {
            type Item = $item;
            type IntoIter = $iter<'r>;

            fn into_iter(self) -> $iter<'r> {
                self.iter()
            }
        }
    };
}

//! Stand-in for the crate `itertools`: `join` alone, which the Rust uses to print functions and for nothing else. No
//! answer of the oracle goes through it.
use std::fmt::{Display, Write};

pub trait Itertools: Iterator {
    /// The items as text, with a separator between them.
    fn join(&mut self, separator: &str) -> String
    where
        Self::Item: Display,
    {
        let mut out = String::new();
        for (i, item) in self.enumerate() {
            if i > 0 {
                out.push_str(separator);
            }
            write!(out, "{item}").expect("a String takes all");
        }
        out
    }
}

impl<T: Iterator + ?Sized> Itertools for T {}

//! Bytes for a terminal.
use core::fmt::{self, Display, Formatter, Write};

/// Shows bytes so that nothing but printable ASCII reaches a terminal: any other byte as `\x` and two hexadecimal digits.
///
/// A refusal's message quotes the text's own byte, which may be a control character.
///
/// ```
/// use pitchsleet::Printable;
///
/// assert_eq!(Printable(b"Unexpected token: '\x1b'.").to_string(), r"Unexpected token: '\x1b'.");
/// ```
#[derive(Clone, Copy, Debug, PartialEq, Eq)]
pub struct Printable<'a>(pub &'a [u8]);

impl Display for Printable<'_> {
    fn fmt(&self, f: &mut Formatter<'_>) -> fmt::Result {
        for &byte in self.0 {
            match byte {
                b' '..=b'~' => f.write_char(char::from(byte))?,
                _ => write!(f, "\\x{byte:02x}")?,
            }
        }
        Ok(())
    }
}

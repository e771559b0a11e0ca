//! Why the tool could not do what it was asked.
use std::io;

pub enum Failure {
    /// One line for standard error.
    Said(String),
    /// Nobody reads the output any more, as after `| head`: nothing is to be said.
    OutputClosed,
}

impl From<String> for Failure {
    fn from(line: String) -> Self {
        Self::Said(line)
    }
}

/// An error of writing: what reads makes a line of its errors, which names the input.
impl From<io::Error> for Failure {
    fn from(why: io::Error) -> Self {
        match why.kind() {
            io::ErrorKind::BrokenPipe => Self::OutputClosed,
            _ => Self::Said(format!("standard output can't be written: {why}")),
        }
    }
}

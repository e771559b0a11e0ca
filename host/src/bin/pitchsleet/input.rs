//! Where a text comes from.
use std::ffi::OsStr;
use std::fs::File;
use std::io::{self, Read};

use pitchsleet::raw::TEXT_BYTES;

use crate::args::shown;

/// A text that is too long is refused by its length alone: no more of it is kept than shows that.
pub const KEPT: usize = TEXT_BYTES + 1;

/// The bytes of a file, or of standard input where its name is a dash.
pub fn text_of(file: &OsStr) -> Result<Vec<u8>, String> {
    let read = match file {
        file if file == "-" => kept(io::stdin().lock()),
        file => File::open(file).and_then(kept),
    };
    read.map_err(|why| format!("{} can't be read: {why}", shown(file)))
}

fn kept(input: impl Read) -> io::Result<Vec<u8>> {
    let mut text = Vec::with_capacity(KEPT);
    input.take(KEPT as u64).read_to_end(&mut text)?;
    Ok(text)
}

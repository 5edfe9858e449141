//! Standard input and output, whole.

use std::io::{self, Read, Write};
use std::path::Path;

use crate::fault::Fault;

/// All of standard input.
pub fn input() -> Result<String, Fault> {
    let mut bytes = Vec::new();
    let read = io::stdin().lock().read_to_end(&mut bytes);
    read.map_err(|error| Fault::io(Path::new("standard input"), &error))?;
    String::from_utf8(bytes).map_err(|_| Fault::data("standard input: not text"))
}

/// A text to standard output, flushed.
pub fn output(text: &str) -> Result<(), Fault> {
    let mut out = io::stdout().lock();
    let put = out.write_all(text.as_bytes()).and_then(|()| out.flush());
    put.map_err(|error| Fault::output(&error))
}

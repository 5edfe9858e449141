//! Answers the lines of a trace by the proved library: lines on standard
//! input, answers on standard output. `tests/reference` has the program that
//! answers by the reference, and prints lines from a seed.

use std::io::{self, BufWriter};

use host::Proved;
use reference::trace::session;

fn main() -> io::Result<()> {
    let mut output = BufWriter::new(io::stdout().lock());
    session::run(&mut Proved, &mut io::stdin().lock(), &mut output)
}

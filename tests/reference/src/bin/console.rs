//! The console program: lines on standard input, answers on standard output.

use std::io::{self, BufWriter};

fn main() -> io::Result<()> {
    let mut output = BufWriter::new(io::stdout().lock());
    reference::console::run(&mut io::stdin().lock(), &mut output)
}

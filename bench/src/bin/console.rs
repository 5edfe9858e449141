//! The reference program's console, built as the rest of the benchmark is:
//! with no checks of overflow.

use std::io::{self, BufWriter};

fn main() -> io::Result<()> {
    let mut output = BufWriter::new(io::stdout().lock());
    reference::console::run(&mut io::stdin().lock(), &mut output)
}

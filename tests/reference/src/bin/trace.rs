//! Answers the lines of a trace by this program: lines on standard input,
//! answers on standard output. `trace SEED [LINES]` prints lines from a seed
//! instead.

use std::io::{self, BufWriter, Write};

use reference::engine::Reference;
use reference::trace::{seeds, session};

const DEFAULT_LINES: usize = 2000;

fn main() -> io::Result<()> {
    let words: Vec<String> = std::env::args().skip(1).collect();
    let numbers: Vec<u64> = words.iter().filter_map(|word| word.parse().ok()).collect();
    let mut output = BufWriter::new(io::stdout().lock());
    match numbers[..] {
        [] if words.is_empty() => {
            session::run(&mut Reference, &mut io::stdin().lock(), &mut output)
        }
        [seed] => output.write_all(&seeds::lines(seed, DEFAULT_LINES)),
        [seed, count] => output.write_all(&seeds::lines(seed, count as usize)),
        _ => Err(io::Error::other("usage: trace [SEED [LINES]]")),
    }
}

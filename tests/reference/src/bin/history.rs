//! Prints console input from a seed: `history SEED [LINES]`.

use std::io::{self, Write};
use std::process::ExitCode;

const DEFAULT_LINES: usize = 1000;

fn main() -> ExitCode {
    let mut arguments = std::env::args().skip(1);
    let seed = arguments.next().and_then(|word| word.parse().ok());
    let count = match arguments.next() {
        Some(word) => word.parse().ok(),
        None => Some(DEFAULT_LINES),
    };
    let (Some(seed), Some(count)) = (seed, count) else {
        eprintln!("usage: history SEED [LINES]");
        return ExitCode::FAILURE;
    };
    let input = reference::lines::lines(seed, count);
    match io::stdout().write_all(&input) {
        Ok(()) => ExitCode::SUCCESS,
        Err(_) => ExitCode::FAILURE,
    }
}

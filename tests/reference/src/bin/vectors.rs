//! Prints a history as test vectors: `vectors SEED [PAGES [CALLS]]`.
//!
//! A line for each call: the call, its answer, and a digest of the store and
//! of the list after it (FNV-1a, 64 bits, numbers as four bytes, high first),
//! so that a program in any language can be run against it.

use std::io::{self, BufWriter, Write};

use reference::engine::{apply, Call};
use reference::history::{History, KINDS};
use reference::layout::PAGE_BYTES;
use reference::trace::hash;
use reference::trace::line::Line;

fn main() -> io::Result<()> {
    let words: Vec<u64> = std::env::args()
        .skip(1)
        .filter_map(|word| word.parse().ok())
        .collect();
    let given = |index: usize, otherwise: u64| words.get(index).copied().unwrap_or(otherwise);
    let (seed, pages, count) = (given(0, 1), given(1, 16) as usize, given(2, 200));
    let mut output = BufWriter::new(io::stdout().lock());
    let mut history = History::new(seed, KINDS[seed as usize % KINDS.len()], pages);
    let mut store = vec![0; pages * PAGE_BYTES];
    for _ in 0..count {
        let call = history.next_call();
        let mut list = vec![0; call.list_length()];
        let answer = apply(call, &mut store, &mut list);
        history.observe(call, &answer);
        write!(output, "{} -> ", text(call))?;
        write!(output, "{} {} ", answer.number, answer.rule)?;
        write!(output, "{} {} ", u32::from(answer.found), answer.value)?;
        write!(output, "{} ", answer.count)?;
        writeln!(
            output,
            "{:016x} {:016x}",
            hash::of_bytes(&store),
            hash::of_numbers(&list)
        )?;
    }
    output.flush()
}

/// The call as a line of a trace, and how long its list is.
fn text(call: Call) -> String {
    let line = match call {
        Call::Fresh => "fresh".to_string(),
        _ => Line::Call(call).to_string(),
    };
    match call.takes_list() {
        true => format!("{line} {}", call.list_length()),
        false => line,
    }
}

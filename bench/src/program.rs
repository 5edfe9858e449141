//! The console program, started with lines on its standard input, beside the
//! reference program's, which src/bin/console.rs makes a program of its own.

use std::fs::File;
use std::path::{Path, PathBuf};
use std::process::{Command, Stdio};

use reference::console::{self, Command as Line};
use reference::lines::lines;

use hostile::measure::{in_turn_outside, times, told};

const LINES: usize = 10_000;

/// The kit's console, which is one for x86-64; where `bench/run` made one for this processor, that.
fn proved() -> PathBuf {
    let kit = concat!(env!("CARGO_MANIFEST_DIR"), "/../crates/console/out/console");
    std::env::var_os("RCST_CONSOLE").map_or_else(|| kit.into(), PathBuf::from)
}

fn reference() -> PathBuf {
    let own = std::env::current_exe().expect("the path of this program");
    own.with_file_name("console")
}

/// Starts the program on the lines of a file and waits for its end.
fn run(program: &Path, input: &Path, output: Stdio) -> Vec<u8> {
    let lines = File::open(input).expect("the lines");
    let mut command = Command::new(program);
    let ended = command.stdin(lines).stdout(output).output();
    let ended = ended.expect("the program starts");
    assert!(ended.status.success(), "{}", program.display());
    ended.stdout
}

/// The lines in a file.
fn written(input: &[u8]) -> PathBuf {
    let name = format!("rcst-lines-{}", std::process::id());
    let path = std::env::temp_dir().join(name);
    std::fs::write(&path, input).expect("a file for the lines");
    path
}

/// Lines on small stores alone, so that a million of them are soon answered:
/// the histories, a hundred lines each, whose stores have so few pages.
fn light_lines() -> Vec<u8> {
    const PART: usize = 100;
    let light = |part: &Vec<u8>| {
        let mut all = part.split(|byte| *byte == b'\n').filter_map(console::parse);
        all.all(|line| !matches!(line, Line::Store(pages) if (13..=256).contains(&pages)))
    };
    let parts = (0..).map(|seed| lines(seed, PART)).filter(light);
    let mut input = Vec::new();
    for part in parts.take(LINES / PART) {
        let part = part.strip_suffix(b"\n").unwrap_or(&part);
        input.extend(part);
        input.push(b'\n');
    }
    input
}

pub fn program() {
    println!("## The program\n");
    println!("Times as long as the reference program, both as a whole.\n");
    println!("| lines | on stores of | ratio | proved, a line | reference, a line |");
    println!("|---|---|---|---|---|");
    row("6 to 256 pages", &lines(1, LINES), 1);
    let light = light_lines();
    for repeats in [1, 10, 100] {
        row("6 to 12 pages", &light, repeats);
    }
    println!();
}

/// Both programs on ten thousand lines, so many times over; with equal answers.
fn row(stores: &str, input: &[u8], repeats: usize) {
    let path = written(&input.repeat(repeats));
    let (proved, reference) = (proved(), reference());
    let answers = |program: &Path| run(program, &path, Stdio::piped());
    assert!(answers(&proved) == answers(&reference), "equal answers");
    let taken = in_turn_outside(&mut [
        &mut || run(&proved, &path, Stdio::null()).len() as u64,
        &mut || run(&reference, &path, Stdio::null()).len() as u64,
    ]);
    let count = LINES * repeats;
    println!(
        "| {count} | {stores} | {} | {} | {} |",
        times(taken.ratio(0, 1)),
        told(taken.of(0) / count as f64),
        told(taken.of(1) / count as f64)
    );
    std::fs::remove_file(&path).expect("the file of lines");
}

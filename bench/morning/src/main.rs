//! Request 2026-11: the proved console beside a program with one sorted list
//! for each version, on equal lines. `bench/morning/run` builds and starts it;
//! docs/BENCH.md has the table.
//!
//! The two programs take turns; a time is the processor time of a whole
//! program, from its start to its end, and a ratio is the median of the
//! rounds' ratios. Lookups are what a program takes for the updates and the
//! lookups less what it takes for the updates alone.
//! Instructions are counted by valgrind, where it is installed: they do not
//! depend on what else the machine does.

use std::path::{Path, PathBuf};
use std::process::Stdio;

use hostile::measure::{times, told, Times};
use morning::mix::{Kind, Mix, Spread, KINDS, UPDATES};
use morning::turns::{start, written, Programs};

const LOOKUPS: usize = 100_000;

/// Instructions of a whole program, or none where valgrind is not installed.
fn instructions(program: &Path, lines: &Path) -> Option<f64> {
    let valgrind = Path::new("/usr/bin/valgrind");
    if !valgrind.exists() {
        return None;
    }
    let tool = Path::new("--tool=callgrind");
    let to = Path::new("--callgrind-out-file=/dev/null");
    let ended = start(&[valgrind, tool, to, program], lines, Stdio::null());
    let said = String::from_utf8_lossy(&ended.stderr).into_owned();
    let counted = said
        .lines()
        .find_map(|line| line.split("Collected : ").nth(1));
    counted.and_then(|number| number.trim().parse().ok())
}

/// Both programs' instructions on each file.
fn counted(programs: &Programs, files: &[PathBuf]) -> Option<Vec<[f64; 2]>> {
    let both = |file: &PathBuf| {
        let [one, other] = [0, 1].map(|way| instructions(&programs.0[way], file));
        Some([one?, other?])
    };
    files.iter().map(both).collect()
}

/// A mix, its files of lines, and what was taken on them.
struct Taken {
    name: &'static str,
    versions: usize,
    files: Vec<PathBuf>,
    times: Times,
}

/// The mix with its updates alone, and with the lookups of each spread behind them.
fn files(name: &str, mix: &mut Mix) -> Vec<PathBuf> {
    let mut files = vec![written(name, &mix.lines)];
    for (place, spread) in [Spread::Runs, Spread::Random].into_iter().enumerate() {
        let mut lines = mix.lines.clone();
        lines.extend(mix.lookups(LOOKUPS, spread));
        files.push(written(&format!("{name}-{place}"), &lines));
    }
    files
}

fn taken(programs: &Programs, name: &'static str, kind: Kind) -> Taken {
    let mut mix = Mix::new(kind, 1);
    let files = files(name, &mut mix);
    for file in &files {
        assert!(programs.equal(file), "{name}: equal answers");
    }
    Taken {
        name,
        versions: mix.versions.len(),
        times: programs.timed(&files),
        files,
    }
}

/// How many times as long the console takes: lookups in runs, at any version; updates; both, in runs, at any version.
fn longer(taken: &Times) -> String {
    let alone = |at: usize| times(taken.ratio_of_more([2 * at, 0], [2 * at + 1, 1]));
    let whole = |at: usize| times(taken.ratio(2 * at, 2 * at + 1));
    [
        format!("**{}**", alone(1)),
        format!("**{}**", alone(2)),
        whole(0),
        whole(1),
        whole(2),
    ]
    .join(" | ")
}

/// How many times as many instructions it takes: lookups, updates, both; of the two spreads the larger.
fn fewer(counts: &[[f64; 2]]) -> String {
    let [updates, runs, any] = [0, 1, 2].map(|at| counts[at]);
    let alone = |both: [f64; 2]| (both[0] - updates[0]) / (both[1] - updates[1]);
    let whole = |both: [f64; 2]| both[0] / both[1];
    [
        alone(runs).max(alone(any)),
        whole(updates),
        whole(runs).max(whole(any)),
    ]
    .map(times)
    .join(" | ")
}

/// What one of them takes the console and the lists: a lookup in runs, one at any version, an update.
fn each(taken: &Times) -> String {
    let lookup =
        |at: usize, program: usize| told(taken.more(2 * at + program, program)[1] / LOOKUPS as f64);
    let update = |program: usize| told(taken.of(program) / UPDATES as f64);
    let both = |of: &dyn Fn(usize) -> String| format!("{} | {}", of(0), of(1));
    [
        both(&|program| lookup(1, program)),
        both(&|program| lookup(2, program)),
        both(&update),
    ]
    .join(" | ")
}

/// `morning CONSOLE`
fn main() {
    let console = std::env::args_os()
        .nth(1)
        .expect("the path of the console program");
    let own = std::env::current_exe().expect("the path of this program");
    let programs = Programs(vec![console.into(), own.with_file_name("lists")]);
    let mixes = KINDS.map(|(name, kind)| taken(&programs, name, kind));
    println!("| mix | versions | lookups, runs of 400 | lookups, any version | updates | both, runs | both, any version |");
    println!("|---|---|---|---|---|---|---|");
    for mix in &mixes {
        let longer = longer(&mix.times);
        println!("| {} | {} | {longer} |", mix.name, mix.versions);
    }
    println!("\n| mix | a lookup, runs of 400: console | lists | any version: console | lists | an update: console | lists |");
    println!("|---|---|---|---|---|---|---|");
    for mix in &mixes {
        println!("| {} | {} |", mix.name, each(&mix.times));
    }
    println!("\n| mix | instructions: lookups | updates | both |\n|---|---|---|---|");
    for mix in &mixes {
        if let Some(counts) = counted(&programs, &mix.files) {
            println!("| {} | {} |", mix.name, fewer(&counts));
        }
    }
    for file in mixes.iter().flat_map(|mix| &mix.files) {
        std::fs::remove_file(file).expect("the file of lines");
    }
}

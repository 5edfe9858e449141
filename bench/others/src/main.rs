//! SQLite in memory with a history table, and LMDB, beside the store, on the mixes of bench/morning. `bench/run others`
//! builds and starts it; docs/BENCH.md has the table.
//!
//! All are whole programs on equal lines with equal answers, which are compared first. They take turns, and a time is
//! processor time. What a program takes for the first line alone, `store 256`, is taken off. What is not installed is
//! left out, and that is said.

use std::collections::BTreeSet;
use std::path::{Path, PathBuf};
use std::process::Stdio;

use hostile::measure::{times, told, Times};
use morning::mix::{Kind, Mix, Spread, KINDS, UPDATES};
use morning::turns::{start, written, Programs};
use reference::rng::Rng;

const LOOKUPS: usize = 100_000;
/// So often the programs take turns for some seconds.
const SITTINGS: usize = 2;

/// What is timed: the file with more lines, and the one under it; and how many there are of them.
type Timed = (usize, usize, usize);
const OF_A_MIX: [Timed; 3] = [(1, 0, UPDATES), (2, 1, LOOKUPS), (3, 1, LOOKUPS)];
const OF_MANY: [Timed; 2] = [(1, 0, VERSIONS), (2, 1, LOOKUPS)];

/// The history of `bench/run versions`: so many versions, of which each changes one setting.
const VERSIONS: usize = 32_000;
const KEYS: u32 = 16_776_960;

struct Program {
    name: &'static str,
    path: PathBuf,
}

/// The first line, the updates behind it, and behind these the lookups in runs, or each at a version of its own.
fn files(name: &str, mix: &mut Mix) -> Vec<PathBuf> {
    let end = mix.lines.iter().position(|byte| *byte == b'\n');
    let first = &mix.lines[..=end.expect("a line")];
    let mut files = vec![
        written(&format!("{name}-first"), first),
        written(name, &mix.lines),
    ];
    for (place, spread) in [Spread::Runs, Spread::Random].into_iter().enumerate() {
        let mut lines = mix.lines.clone();
        lines.extend(mix.lookups(LOOKUPS, spread));
        files.push(written(&format!("{name}-{place}"), &lines));
    }
    files
}

/// The bytes that a program keeps behind the updates. The lists' are counted here, without what an allocator adds: eight
/// for a setting, and a pointer and two lengths for a version. The console has the pages that it was told to make.
fn bytes(program: &Program, lists: usize, updates: &Path) -> usize {
    match program.name {
        "the console" => 65_536,
        "lists" => lists,
        _ => {
            let ended = start(&[&program.path, Path::new("bytes")], updates, Stdio::null());
            let said = String::from_utf8_lossy(&ended.stderr).into_owned();
            said.trim().parse().expect("the bytes")
        }
    }
}

fn median(mut numbers: Vec<f64>) -> f64 {
    numbers.sort_by(f64::total_cmp);
    numbers[numbers.len() / 2]
}

/// So many programs' cells of the table: what each takes, and how many times the first one's time that is.
fn cells(count: usize, sittings: &[Times], timed: &[Timed]) -> Vec<String> {
    let of = |each: &dyn Fn(&Times) -> f64| median(sittings.iter().map(each).collect());
    let pair =
        |timed: &Timed, program: usize| [timed.0, timed.1].map(|file| file * count + program);
    let row = |program: usize| {
        let each = timed.iter().map(|timed| {
            let [more, less] = pair(timed, program);
            told(of(&|taken| taken.more(more, less)[1]) / timed.2 as f64)
        });
        let ratios = timed.iter().map(|timed| {
            let ratio = |taken: &Times| taken.ratio_of_more(pair(timed, program), pair(timed, 0));
            times(of(&ratio))
        });
        each.chain(ratios).collect::<Vec<_>>().join(" | ")
    };
    (0..count).map(row).collect()
}

/// Equal answers first; then the programs in turn.
fn sat(programs: &[Program], files: &[PathBuf], sittings: usize) -> Vec<Times> {
    let paths = programs.iter().map(|program| program.path.clone());
    let programs = Programs(paths.collect());
    for file in files {
        assert!(programs.equal(file), "equal answers");
    }
    (0..sittings).map(|_| programs.timed(files)).collect()
}

fn removed(files: Vec<PathBuf>) {
    for file in files {
        std::fs::remove_file(file).expect("the file of lines");
    }
}

/// The programs on a mix, the console first.
fn mix(name: &str, kind: Kind, programs: &[Program], sittings: usize) {
    let mut mix = Mix::new(kind, 1);
    let files = files(name, &mut mix);
    let rows = cells(programs.len(), &sat(programs, &files, sittings), &OF_A_MIX);
    let lists = mix.versions.iter().map(|keys| 24 + 8 * keys.len()).sum();
    for (program, row) in programs.iter().zip(rows) {
        let kept = bytes(program, lists, &files[1]);
        println!("| {name} | {} | {row} | {kept} |", program.name);
    }
    removed(files);
}

/// A table of all mixes.
fn mixes(programs: &[Program], sittings: usize) {
    println!("| mix | | an update | a lookup, runs of 400 | a lookup, any version | times the console: updates | lookups, runs | lookups, any version | bytes kept |");
    println!("|---|---|---|---|---|---|---|---|---|");
    for (name, kind) in KINDS {
        mix(name, kind, programs, sittings);
    }
    println!();
}

/// The first line; the history behind it; and lookups of settings that are alive, each at a version of its own.
fn history(settings: usize) -> Vec<PathBuf> {
    let mut rng = Rng::new(1);
    let mut keys = BTreeSet::new();
    while keys.len() < settings {
        keys.insert(rng.below(KEYS));
    }
    let keys: Vec<u32> = keys.into_iter().collect();
    let first = "store 256\n".to_string();
    let mut releases = first.clone() + "open\n";
    for key in &keys {
        releases += &format!("insert {key} 0\n");
    }
    releases += "commit\n";
    for _ in 1..VERSIONS {
        let (key, value) = (keys[rng.below(settings as u32) as usize], rng.word());
        releases += &format!("open\ndelete {key}\ninsert {key} {value}\ncommit\n");
    }
    let mut all = releases.clone();
    for _ in 0..LOOKUPS {
        let key = keys[rng.below(settings as u32) as usize];
        all += &format!("get {key} {}\n", 1 + rng.below(VERSIONS as u32));
    }
    let named = [("first", first), ("releases", releases), ("all", all)];
    let written =
        named.map(|(name, lines)| written(&format!("{settings}-{name}"), lines.as_bytes()));
    written.into()
}

/// Those that have no fixed number of pages, on many versions.
fn many(settings: usize, programs: &[Program]) {
    let files = history(settings);
    let rows = cells(programs.len(), &sat(programs, &files, 1), &OF_MANY);
    let lists = 24 + VERSIONS * (24 + 8 * settings);
    for (program, row) in programs.iter().zip(rows) {
        let kept = bytes(program, lists, &files[1]);
        println!("| {settings} | {} | {row} | {kept} |", program.name);
    }
    removed(files);
}

/// `others CONSOLE LISTS`
fn main() {
    let own = std::env::current_exe().expect("the path of this program");
    let given = |place| std::env::args_os().nth(place).expect("two paths");
    let program = |name, path| Program { name, path };
    let console = || program("the console", given(1).into());
    let mut quick = vec![console(), program("lists", given(2).into())];
    for (name, file, linked, package) in [
        ("SQLite", "sqlite", cfg!(sqlite), "libsqlite3-dev"),
        ("LMDB", "lmdb", cfg!(lmdb), "liblmdb-dev"),
    ] {
        match linked {
            true => quick.push(program(name, own.with_file_name(file))),
            false => println!("{name} is left out: {package} is not installed.\n"),
        }
    }
    println!("## SQLite and LMDB beside it\n");
    mixes(&quick, SITTINGS);
    println!("| settings | | a release | a lookup, any version | times the lists: releases | lookups | bytes kept |");
    println!("|---|---|---|---|---|---|---|");
    for settings in [50, 500] {
        many(settings, &quick[1..]);
    }
    println!("\nThe host's calls, which judge, take too long to be among them:\n");
    let host = program("the host's calls", own.with_file_name("host"));
    mixes(&[console(), host], 1);
}

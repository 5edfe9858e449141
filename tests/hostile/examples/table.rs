//! The table of docs/CHECK-COST.md: what judging and check of each hostile store take,
//! in pages read by the counting port, and in processor time of the proved library.
//!
//! `table [OTHER]`: OTHER is this program linked with another library, whose times
//! stand beside. Each store is judged by a program of its own, which is ended where it
//! takes too long.

use std::hint::black_box;
use std::path::Path;
use std::process::{Command, Stdio};
use std::time::Duration;

use hostile::bound::Bound;
use hostile::judge::{check, judged};
use hostile::measure::{in_turn, once, told};
use hostile::notes::{self, Work};
use hostile::quick::{budget, read::Loads};
use hostile::recipe::{family, second, ROWS};
use reference::edition::{Edition, FIRST};

/// Seconds of processor time after which a program is ended.
const PATIENCE: u64 = 10;

fn main() {
    let arguments: Vec<String> = std::env::args().collect();
    if let [_, time, call, store] = &arguments[..] {
        assert_eq!(time, "time");
        return time_of(call, store);
    }
    let mut programs = vec![arguments[0].clone()];
    programs.extend(arguments.get(1).cloned());
    let columns = |word: &str| format!(" {word} |").repeat(programs.len());
    println!(
        "| store | pages | broken rule | `under` reads, judging | notes, judging | notes, check | looks, check | at most, check |{}{}",
        columns("judging"),
        columns("check")
    );
    println!(
        "|---|---|---|---|---|---|---|---|{}",
        columns("---").repeat(2)
    );
    for row in &ROWS {
        for numbers in [row.small, row.large] {
            let store = family(row.family).store(numbers).expect(row.name);
            line(row.name, &store, &programs);
        }
    }
    for (name, store) in second() {
        line(&format!("edition 2: {name}"), &store, &programs);
    }
}

/// What the port says: the rule, what judging read and noted, and what check noted. Of
/// edition 2 it has the notes alone.
fn counted(store: &[u8], pages: usize) -> (u32, Option<(u32, Work)>, Work) {
    if *Edition::of(store) != FIRST {
        let (rule, work) = notes::broken(store);
        return (rule, None, work);
    }
    let (_, rule, taken) = check(store, budget(pages));
    let (_, judging) = judged::<Loads>(store, budget(pages));
    assert!(taken.under <= budget(pages) && judging.under <= budget(pages));
    (rule, Some((judging.under, judging.judging)), taken.naming)
}

fn line(name: &str, store: &[u8], programs: &[String]) {
    let pages = store.len() / Edition::of(store).page_bytes;
    let (rule, judging, naming) = counted(store, pages);
    let number = if rule == 0 { 0 } else { 4 };
    let bound = Bound::of(store);
    assert!(bound.holds_check(naming));
    let file = std::env::temp_dir().join(format!("hostile-{}.store", std::process::id()));
    std::fs::write(&file, store).expect("a file for the store");
    let times: String = ["commit", "check"]
        .iter()
        .flat_map(|call| programs.iter().map(move |program| (call, program)))
        .map(|(call, program)| format!(" {} |", asked(program, call, &file, (number, rule))))
        .collect();
    std::fs::remove_file(&file).expect("the file for the store");
    let broken = match rule {
        0 => "none".to_string(),
        rule => rule.to_string(),
    };
    let judging = match judging {
        Some((under, work)) => {
            assert!(bound.holds_judging(work));
            format!("{under} | {}", work.notes)
        }
        None => "- | -".to_string(),
    };
    println!(
        "| {name} | {pages} | {broken} | {judging} | {} | {} | {} |{times}",
        naming.notes, naming.looks, bound.check
    );
}

/// What a program of its own says of the time, if it ends in time. It must give the
/// port's verdict.
fn asked(program: &str, call: &str, store: &Path, verdict: (u32, u32)) -> String {
    let mut child = Command::new(program)
        .args(["time", call])
        .arg(store)
        .stdout(Stdio::piped())
        .spawn()
        .expect("the program that takes the time");
    while child.try_wait().expect("its end").is_none() {
        if run(child.id()).is_some_and(|seconds| seconds >= PATIENCE) {
            child.kill().expect("its end");
            child.wait().expect("its end");
            return format!("over {PATIENCE} s");
        }
        std::thread::sleep(Duration::from_millis(5));
    }
    let output = child.wait_with_output().expect("what it says");
    let said = String::from_utf8(output.stdout).expect("words");
    let (said, seconds) = said.trim().split_once(' ').expect("verdict and time");
    let expected = match (call, verdict) {
        ("check", (number, rule)) => format!("{number},{rule}"),
        // no update is open in a hostile store
        (_, (0, _)) => "7,0".to_string(),
        (_, (number, _)) => format!("{number},0"),
    };
    assert_eq!(said, expected, "{call}");
    told(seconds.parse().expect("seconds"))
}

/// The whole seconds of processor time that a program has run, as Linux tells: the
/// 14th field of its line, in hundredths, and the name in round brackets is the second.
fn run(program: u32) -> Option<u64> {
    let line = std::fs::read_to_string(format!("/proc/{program}/stat")).ok()?;
    let behind = line.rsplit_once(')')?.1;
    let ticks: u64 = behind.split_whitespace().nth(11)?.parse().ok()?;
    Some(ticks / 100)
}

/// Prints the library's answer and the seconds that one call takes.
fn time_of(call: &str, store: &str) {
    let mut store = std::fs::read(store).expect("the store");
    let mut answer = (0, 0);
    let mut way = || {
        answer = match call {
            "check" => host::check(black_box(&store)),
            _ => (host::commit(black_box(&mut store)), 0),
        };
        answer.0.into()
    };
    let mut seconds = once(&mut way);
    if seconds < 1.0 {
        seconds = in_turn(&mut [&mut way]).of(0);
    }
    println!("{},{} {seconds}", answer.0, answer.1);
}

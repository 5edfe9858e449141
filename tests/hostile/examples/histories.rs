//! Judging of histories by two proved libraries: how many times as long this one takes.
//!
//! `histories OTHER`: OTHER is this program linked with another library; `bench/against`
//! builds both. They take turns, a program of its own each time, and the ratio is the
//! median of the turns' ratios. `histories` alone gives the times.

use std::hint::black_box;
use std::path::Path;
use std::process::Command;

use hostile::measure::{in_turn, times, told};
use hostile::stores::grown;
use reference::number::NONE_OPEN;

const TURNS: usize = 5;

fn main() {
    let arguments: Vec<String> = std::env::args().collect();
    if let [_, time, store] = &arguments[..] {
        assert_eq!(time, "time");
        return println!("{}", judged(store));
    }
    let other = arguments.get(1);
    println!("| pages | versions | judging | beside the other library |");
    println!("|---|---|---|---|");
    let file = std::env::temp_dir().join(format!("history-{}.store", std::process::id()));
    for pages in [16, 256, 4096] {
        for versions in [2, 32, 1024] {
            std::fs::write(&file, grown(pages, versions)).expect("a file for the store");
            let mut turns: Vec<(f64, f64)> = (0..TURNS)
                .map(|_| {
                    let own = asked(&arguments[0], &file);
                    (own, other.map_or(own, |other| own / asked(other, &file)))
                })
                .collect();
            turns.sort_by(|one, two| one.0.total_cmp(&two.0));
            let time = told(turns[TURNS / 2].0);
            turns.sort_by(|one, two| one.1.total_cmp(&two.1));
            let ratio = other.map_or("-".to_string(), |_| times(turns[TURNS / 2].1));
            println!("| {pages} | {versions} | {time} | {ratio} |");
        }
    }
    std::fs::remove_file(&file).expect("the file for the store");
}

/// The seconds that a program of its own says.
fn asked(program: &str, store: &Path) -> f64 {
    let output = Command::new(program).arg("time").arg(store).output();
    let said = output.expect("the program that takes the time").stdout;
    let said = String::from_utf8(said).expect("words");
    said.trim().parse().expect("seconds")
}

/// The seconds of a commit where no update is open: it judges, and is refused.
fn judged(store: &str) -> f64 {
    let mut store = std::fs::read(store).expect("the store");
    let mut way = || {
        let number = host::commit(black_box(&mut store));
        assert_eq!(number, NONE_OPEN);
        number.into()
    };
    in_turn(&mut [&mut way]).of(0)
}

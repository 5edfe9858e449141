//! The four mixes of updates (`bench/morning`) without end, on a store of edition 2 that
//! is pruned to its last 100 versions every 100 versions: in how few pages each runs on.
//!
//! A round of a mix is what it is there while there is room: it minds no free pages.

use morning::endless::{fewest, most_kept, never_pruned, run, MOST_PAGES};
use morning::mix::{Kind, KINDS};
use reference::console::{parse, Command};
use reference::number;

use crate::proved;

/// For how many versions each runs.
const VERSIONS: [u32; 4] = [10_000, 2_000, 1_000, 500];
const KEPT: u32 = 100;

/// One line of a mix, by the proved library; lookups are none of its lines.
fn made(store: &mut [u8], line: &[u8]) {
    let given = match parse(line).expect("a line of the console") {
        Command::Open => proved::open(store),
        Command::Insert(key, value) => proved::insert(store, key, value),
        Command::Delete(key) => proved::delete(store, key),
        Command::Commit => proved::commit(store),
        Command::Abandon => proved::abandon(store),
        other => panic!("{other:?}"),
    };
    assert_eq!(given, number::DONE);
}

/// The proved library makes the same bytes, round by round and prune by prune.
fn held(kind: Kind, pages: usize, versions: u32) {
    let mut store = vec![0; 512 * pages];
    assert_eq!(proved::fresh_second(&mut store), number::DONE);
    let ran = run(kind, pages, versions, KEPT, |mix, oldest| {
        let lines = mix.lines.split(|byte| *byte == b'\n');
        for line in lines.filter(|line| !line.is_empty()) {
            made(&mut store, line);
        }
        assert!(store == mix.bytes, "version {}", mix.current());
        if let Some(oldest) = oldest {
            assert_eq!(proved::prune(&mut store, oldest), number::DONE);
        }
    });
    assert_eq!((ran.versions, ran.stopped), (versions, None));
}

/// One line of the table.
fn row(name: &str, kind: Kind, versions: u32) {
    let (pages, less) = match fewest(kind, versions, KEPT) {
        Ok((pages, less)) => {
            let stopped = less.stopped.unwrap_or(number::DONE);
            (
                pages.to_string(),
                format!("{}, then {stopped}", less.versions),
            )
        }
        Err(all) => {
            let stopped = all.stopped.unwrap_or(number::DONE);
            let kept = most_kept(kind, versions, KEPT);
            (
                format!("over 4,096: there {}, then {stopped}", all.versions),
                format!("4,096 pages: the last {kept} every {kept}"),
            )
        }
    };
    let without = never_pruned(kind, MOST_PAGES, versions);
    let last = match without.stopped {
        Some(stopped) => format!("{}, then {stopped}", without.versions),
        None => format!("{} in use", without.used),
    };
    println!("| {name} | {versions} | {pages} | {less} | {last} |");
}

pub fn mixed() {
    held(Kind::Releases, 64, 2 * KEPT + 10);
    held(Kind::Steady, 128, 2 * KEPT + 10);
    println!("## Prunes, on the mixes of updates\n");
    println!("| mix | versions | pages | with a page less | never pruned, in 4,096 pages |");
    println!("|---|---|---|---|---|");
    for ((name, kind), versions) in KINDS.into_iter().zip(VERSIONS) {
        row(name, kind, versions);
    }
    println!();
}

//! A store of edition 2 that is pruned to its last 100 versions every 100 versions
//! (2026-12): in how few pages it runs on, and how many are in use at each release,
//! with prunes and without: docs/prunes.svg.
//!
//! Pages are counted, and nothing is timed, so every run says the same. The updates
//! are the independent program's, with no judging; on a part of them the proved
//! library makes the same bytes, which is tested first.

use reference::edition::SECOND;
use reference::number;
use reference::rng::Rng;
use reference::store::write_fresh;
use reference::unjudged::{abandon, delete, insert, open, prune, raw_commit};

use crate::curves::{Curve, Curves, Panel};
use crate::proved;

const PATH: &str = concat!(env!("CARGO_MANIFEST_DIR"), "/../docs/prunes.svg");

/// So many versions are kept, and after so many a prune comes.
const KEPT: u32 = 100;
const MOST_PAGES: usize = 4096;
/// Pages of header and directory.
const FRONT: usize = 5;
const HIGHEST_FREE_KEY: u32 = 16_776_960;

/// Settings, and how many of them a release changes.
type Mix = (usize, u32);

/// The mixes, and for how many releases each runs.
const MIXES: [(Mix, u32); 7] = [
    ((10, 1), 10_000),
    ((50, 1), 10_000),
    ((50, 5), 10_000),
    ((50, 20), 5_000),
    ((500, 1), 10_000),
    ((500, 20), 2_000),
    ((500, 100), 1_000),
];

/// A store on its way from release to release.
struct Run {
    store: Vec<u8>,
    keys: Vec<u32>,
    changes: u32,
    rng: Rng,
}

/// A step of an update, as the independent program or the proved library makes it.
type Step = fn(&mut [u8], u32, u32) -> u32;

impl Run {
    /// Version 1 has the settings, their keys drawn at random; the number that stops
    /// it, if there is no room for them.
    fn new(pages: usize, (settings, changes): Mix) -> Result<Run, u32> {
        let mut store = vec![0; pages * SECOND.page_bytes];
        write_fresh(&SECOND, &mut store);
        let mut run = Run {
            store,
            keys: Vec::new(),
            changes,
            rng: Rng::new(1),
        };
        assert_eq!(open(&mut run.store), number::DONE);
        while run.keys.len() < settings {
            let key = run.rng.below(HIGHEST_FREE_KEY);
            match insert(&mut run.store, key, 0) {
                number::DONE => run.keys.push(key),
                number::KEY_ALIVE => {}
                stopped => return Err(stopped),
            }
        }
        assert_eq!(raw_commit(&mut run.store), number::DONE);
        Ok(run)
    }

    /// The changes of the next release: settings drawn at random, with new values.
    fn drawn(&mut self) -> Vec<(u32, u32)> {
        let rng = &mut self.rng;
        let mut key = || self.keys[rng.below(self.keys.len() as u32) as usize];
        let keys: Vec<u32> = (0..self.changes).map(|_| key()).collect();
        keys.into_iter().map(|key| (key, rng.word())).collect()
    }

    /// Makes one release: each setting is deleted and inserted anew. The number that
    /// stopped it, if one did.
    fn release(&mut self, drawn: &[(u32, u32)]) -> Result<(), u32> {
        assert_eq!(open(&mut self.store), number::DONE);
        let stopped = changed(&mut self.store, drawn, |s, key, _| delete(s, key), insert);
        match stopped {
            Ok(()) => assert_eq!(raw_commit(&mut self.store), number::DONE),
            Err(_) => assert_eq!(abandon(&mut self.store), number::DONE),
        }
        stopped
    }

    /// How many pages are not free.
    fn used(&self) -> usize {
        let pages = self.store.chunks(SECOND.page_bytes).skip(FRONT);
        pages.filter(|page| page[0] >> 4 != 0).count()
    }
}

fn changed(store: &mut [u8], drawn: &[(u32, u32)], delete: Step, insert: Step) -> Result<(), u32> {
    for (key, value) in drawn {
        for step in [delete, insert] {
            match step(store, *key, *value) {
                number::DONE => {}
                stopped => return Err(stopped),
            }
        }
    }
    Ok(())
}

/// The oldest version once this one is the last of those that are kept.
fn due(version: u32) -> Option<u32> {
    (version % KEPT == 0 && version > KEPT).then(|| version + 1 - KEPT)
}

/// Up to this version, with prunes or without: the pages in use behind each, before
/// its prune. Ends early with the number that stops it.
fn ran(pages: usize, mix: Mix, versions: u32, prunes: bool) -> (Vec<usize>, Option<u32>) {
    let mut used = Vec::new();
    let mut run = match Run::new(pages, mix) {
        Ok(run) => run,
        Err(stopped) => return (used, Some(stopped)),
    };
    used.push(run.used());
    for version in 2..=versions {
        let drawn = run.drawn();
        if let Err(stopped) = run.release(&drawn) {
            return (used, Some(stopped));
        }
        used.push(run.used());
        if let Some(oldest) = due(version).filter(|_| prunes) {
            assert_eq!(prune(&mut run.store, oldest), number::DONE);
        }
    }
    (used, None)
}

/// The fewest pages in which it runs all along.
fn fewest(mix: Mix, versions: u32) -> (usize, Vec<usize>) {
    let (used, stopped) = ran(MOST_PAGES, mix, versions, true);
    assert_eq!(stopped, None, "{mix:?}: 4,096 pages do not suffice");
    let most = used.iter().copied().max().unwrap_or_default();
    let mut pages = FRONT + most;
    while ran(pages, mix, versions, true).1.is_some() {
        pages += 1;
    }
    (pages, used)
}

/// The proved library makes the same bytes, release by release and prune by prune.
fn held(mix: Mix, versions: u32) {
    let mut run = Run::new(256, mix).expect("room");
    let mut store = run.store.clone();
    for version in 2..=versions {
        let drawn = run.drawn();
        run.release(&drawn).expect("room");
        assert_eq!(proved::open(&mut store), number::DONE);
        let delete: Step = |store, key, _| proved::delete(store, key);
        assert_eq!(changed(&mut store, &drawn, delete, proved::insert), Ok(()));
        assert_eq!(proved::commit(&mut store), number::DONE);
        if let Some(oldest) = due(version) {
            assert_eq!(prune(&mut run.store, oldest), number::DONE);
            assert_eq!(proved::prune(&mut store, oldest), number::DONE);
        }
        assert!(store == run.store, "{mix:?}, version {version}");
    }
}

/// The pages in use behind each release, with prunes and without, and the number
/// that stopped the latter.
struct Ways {
    mix: Mix,
    with: Vec<usize>,
    without: Vec<usize>,
    stopped: Option<u32>,
}

/// One line of the table.
fn row(mix: Mix, versions: u32) -> Ways {
    let (pages, with) = fewest(mix, versions);
    let (full, number) = ran(pages - 1, mix, versions, true);
    let (without, stopped) = ran(MOST_PAGES, mix, versions, false);
    let last = match stopped {
        Some(stopped) => format!("{} releases, then {stopped}", without.len()),
        None => format!("{} in use", without[without.len() - 1]),
    };
    println!(
        "| {} | {} | {versions} | {pages} | {}, then {} | {last} |",
        mix.0,
        mix.1,
        full.len(),
        number.unwrap_or(number::DONE),
    );
    Ways {
        mix,
        with,
        without,
        stopped,
    }
}

pub fn prunes() {
    held((50, 5), 2 * KEPT + 10);
    held((500, 1), 2 * KEPT + 10);
    println!("## Prunes\n");
    println!("| settings | changes in a release | releases | pages | with a page less | never pruned, in 4,096 pages |");
    println!("|---|---|---|---|---|---|");
    let ways = MIXES.map(|(mix, versions)| row(mix, versions));
    println!();
    let curves = Curves {
        title: "Pages in use over releases",
        names: ["never pruned", "every 100 releases pruned to the last 100"],
        panels: ways.into_iter().skip(5).map(panel).collect(),
    };
    std::fs::write(PATH, curves.svg()).expect("docs/prunes.svg");
    println!("docs/prunes.svg is written.");
}

/// A panel of the picture, which shows the last two mixes.
fn panel(ways: Ways) -> Panel {
    let curve = |colour, points, ends| Curve {
        colour,
        points,
        ends,
    };
    let full = ways.stopped.map(|number| format!("full: {number}"));
    Panel {
        title: format!(
            "{} settings, {} changes in a release",
            ways.mix.0, ways.mix.1
        ),
        across: ways.with.len(),
        curves: vec![
            curve("#b3461f", ways.without, full),
            curve("#1f5fa8", ways.with, None),
        ],
    }
}

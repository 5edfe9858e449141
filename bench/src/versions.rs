//! Time and bytes against the number of versions (2026-11): one sorted list for each version beside a store of fixed pages, on a
//! history in which each release changes one setting: docs/versions.svg.
//!
//! The history is the independent program's, with no judging; its first releases are made by the proved library too, with the same
//! bytes, and lookups are compared, before anything is timed.

use std::hint::black_box;

use hostile::measure::{in_turn, times, told, Times};
use reference::layout::{FIRST_BENCH_KEY, PAGE_BYTES};
use reference::rng::Rng;
use reference::{calls, number, store, unjudged};

use crate::chart::{Chart, Measure, Panel, Point, Series};
use crate::proved;

const PATH: &str = concat!(env!("CARGO_MANIFEST_DIR"), "/../docs/versions.svg");

const PAGES: usize = 4096;
const POINTS: [usize; 6] = [1, 10, 100, 1_000, 10_000, 32_000];
/// So many releases, each taken back, and lookups as offered, are timed in one go; and on a judged store, at each of some versions.
const RELEASES: usize = 8;
const LOOKUPS: usize = 65_536;
const ON_JUDGED: u32 = 50_000;
const STEP: u32 = 7_368_787;

type List = Vec<(u32, u32)>;

/// Both, behind as many releases.
struct History {
    keys: Vec<u32>,
    store: Vec<u8>,
    lists: Vec<List>,
    rng: Rng,
}

/// One setting gets another value.
fn release_lists(lists: &mut Vec<List>, key: u32, value: u32) {
    let find = |list: &List| list.binary_search_by_key(&key, |setting| setting.0);
    let mut list = lists[lists.len() - 1].clone();
    let place = find(&list).expect("alive");
    list.remove(place);
    let place = find(&list).expect_err("deleted");
    list.insert(place, (key, value));
    assert!(list != lists[lists.len() - 1]);
    lists.push(list);
}

fn release_proved(store: &mut [u8], key: u32, value: u32) {
    assert_eq!(proved::open(store), number::DONE);
    assert_eq!(proved::delete(store, key), number::DONE);
    assert_eq!(proved::insert(store, key, value), number::DONE);
    assert_eq!(proved::commit(store), number::DONE);
}

impl History {
    /// Version 1 has the settings, their keys drawn at random.
    fn new(settings: usize) -> History {
        let (mut store, mut list, mut rng) =
            (vec![0; PAGES * PAGE_BYTES], List::new(), Rng::new(1));
        assert_eq!(calls::fresh(&mut store), number::DONE);
        assert_eq!(unjudged::open(&mut store), number::DONE);
        while list.len() < settings {
            let key = rng.below(FIRST_BENCH_KEY);
            if unjudged::insert(&mut store, key, 0) == number::DONE {
                list.push((key, 0));
            }
        }
        assert_eq!(unjudged::raw_commit(&mut store), number::DONE);
        list.sort_unstable();
        History {
            keys: list.iter().map(|setting| setting.0).collect(),
            store,
            lists: vec![List::new(), list],
            rng,
        }
    }

    fn versions(&self) -> usize {
        self.lists.len() - 1
    }

    fn drawn(&mut self) -> (u32, u32) {
        let key = self.keys[self.rng.below(self.keys.len() as u32) as usize];
        (key, self.rng.word())
    }

    fn release(&mut self) -> (u32, u32) {
        let (key, value) = self.drawn();
        assert_eq!(unjudged::open(&mut self.store), number::DONE);
        assert_eq!(unjudged::delete(&mut self.store, key), number::DONE);
        assert_eq!(unjudged::insert(&mut self.store, key, value), number::DONE);
        assert_eq!(unjudged::raw_commit(&mut self.store), number::DONE);
        release_lists(&mut self.lists, key, value);
        (key, value)
    }

    /// Keys and versions: four of five keys are alive.
    fn asked(&mut self) -> Vec<(u32, u32)> {
        let mut one = || {
            let version = 1 + self.rng.below(self.versions() as u32);
            let key = match self.rng.below(5) {
                0 => self.rng.below(FIRST_BENCH_KEY),
                _ => self.keys[self.rng.below(self.keys.len() as u32) as usize],
            };
            (key, version)
        };
        (0..LOOKUPS).map(|_| one()).collect()
    }

    /// Without what an allocator adds: eight bytes for a setting, and a pointer and two lengths for a version.
    fn bytes_of_lists(&self) -> usize {
        self.lists.iter().map(|list| 24 + 8 * list.len()).sum()
    }

    /// Header and directory, and the pages that are not free.
    fn bytes_in_use(&self) -> usize {
        let pages = (5..PAGES as u32).filter(|page| store::level(&self.store, *page) != 0);
        (5 + pages.count()) * PAGE_BYTES
    }
}

fn in_lists(lists: &[List], (key, version): (u32, u32)) -> Option<u32> {
    let list = &lists[version as usize];
    let place = list.binary_search_by_key(&key, |setting| setting.0);
    place.ok().map(|place| list[place].1)
}

fn in_store(store: &[u8], (key, version): (u32, u32)) -> Option<u32> {
    match proved::lookup(store, key, version) {
        (number::DONE, found, value) => found.then_some(value),
        refused => panic!("{refused:?}"),
    }
}

/// The proved library makes the same bytes.
fn held(settings: usize) {
    let mut history = History::new(settings);
    let mut store = history.store.clone();
    for _ in 0..50 {
        let (key, value) = history.release();
        release_proved(&mut store, key, value);
        assert!(store == history.store, "version {}", history.versions());
    }
}

/// A store on which something is done and then taken back: the pages that it changes.
struct Restored {
    before: Vec<u8>,
    now: Vec<u8>,
}

impl Restored {
    fn of(before: &[u8]) -> Restored {
        Restored {
            before: before.to_vec(),
            now: before.to_vec(),
        }
    }

    /// The pages that the work changes; they are taken back.
    fn changed(&mut self, work: impl FnOnce(&mut [u8])) -> Vec<usize> {
        work(&mut self.now);
        let page = |bytes: &[u8], at: usize| bytes[at..at + PAGE_BYTES].to_vec();
        let places = (0..self.before.len()).step_by(PAGE_BYTES);
        let pages: Vec<usize> = places
            .filter(|at| page(&self.before, *at) != page(&self.now, *at))
            .collect();
        self.take_back(&pages);
        assert!(self.now == self.before);
        pages
    }

    fn take_back(&mut self, pages: &[usize]) {
        for at in pages {
            let page = *at..at + PAGE_BYTES;
            self.now[page.clone()].copy_from_slice(&self.before[page]);
        }
    }
}

/// Seconds, as quartiles; none where it was not to be told.
type Quartiles = [f64; 3];
const NONE: Quartiles = [0.0; 3];

/// What is known behind so many releases.
struct Measured {
    versions: usize,
    lists_bytes: usize,
    used_bytes: usize,
    /// Lists, as offered.
    release: [Quartiles; 2],
    /// A step of a return, which is judged once.
    step: Quartiles,
    /// Lists, as offered, on a judged store.
    lookup: [Quartiles; 3],
    ratios: [f64; 2],
}

/// A step of a return to version 1: what it takes beside judging, of which there is one for all its steps.
fn step(history: &History) -> Quartiles {
    let mut open = history.store.clone();
    assert_eq!(unjudged::open(&mut open), number::DONE);
    let mut list = vec![0; 4 * history.keys.len()];
    let version = history.versions() as u32;
    let (given, differ) = proved::difference(&open, version, 1, &mut list);
    assert_eq!(given, number::DONE);
    if differ == 0 {
        return NONE;
    }
    let mut restored = Restored::of(&open);
    let pages = restored.changed(|store| assert_eq!(proved::return_to(store, 1), number::DONE));
    let taken = in_turn(&mut [
        &mut || {
            let given = proved::return_to(black_box(&mut restored.now), 1);
            restored.take_back(&pages);
            given.into()
        },
        &mut || proved::open(black_box(&mut open)).into(),
    ]);
    taken.more(0, 1).map(|all| all / (2 * differ) as f64)
}

/// A lookup on a store that is judged once, as the mean over four versions.
fn on_judged(history: &History) -> Quartiles {
    let versions = [1, 2, 3, 4].map(|quarter| (quarter * history.versions()).div_ceil(4) as u32);
    let all = |count: u32| -> u64 {
        let store = black_box(&history.store);
        let sums = versions.map(|version| proved::lookups(store, 1, STEP, count, version));
        sums.iter().sum()
    };
    let taken = in_turn(&mut [&mut || all(ON_JUDGED), &mut || all(0)]);
    let count = 4.0 * f64::from(ON_JUDGED);
    taken.more(0, 1).map(|more| more / count)
}

/// The next releases on lists and on the store, each taken back: times of all of them.
fn released(history: &mut History) -> Times {
    let changes: Vec<(u32, u32)> = (0..RELEASES).map(|_| history.drawn()).collect();
    let versions = history.versions();
    let mut restored = Restored::of(&history.store);
    let pages: Vec<Vec<usize>> = changes
        .iter()
        .map(|(key, value)| restored.changed(|store| release_proved(store, *key, *value)))
        .collect();
    let lists = &mut history.lists;
    in_turn(&mut [
        &mut || {
            for (key, value) in &changes {
                release_lists(black_box(&mut *lists), *key, *value);
            }
            lists.truncate(versions + 1);
            lists.len() as u64
        },
        &mut || {
            for ((key, value), pages) in changes.iter().zip(&pages) {
                release_proved(black_box(&mut restored.now), *key, *value);
                restored.take_back(pages);
            }
            restored.now[0].into()
        },
    ])
}

/// The lookups asked for, in lists and in the store: times of all of them.
fn looked(history: &History, asked: &[(u32, u32)]) -> Times {
    let (lists, store) = (&history.lists, &history.store);
    for one in asked {
        assert_eq!(in_store(store, *one), in_lists(lists, *one));
    }
    let sum = |of: &dyn Fn((u32, u32)) -> Option<u32>| {
        let values = asked.iter().map(|one| u64::from(of(*one).unwrap_or(0)));
        values.sum()
    };
    in_turn(&mut [
        &mut || sum(&|one| in_lists(black_box(lists), one)),
        &mut || sum(&|one| in_store(black_box(store), one)),
    ])
}

fn measured(history: &mut History) -> Measured {
    let released = released(history);
    let asked = history.asked();
    let looked = looked(history, &asked);
    let each = |taken: &Times, way: usize, count: usize| {
        taken.quartiles(way).map(|all| all / count as f64)
    };
    Measured {
        versions: history.versions(),
        lists_bytes: history.bytes_of_lists(),
        used_bytes: history.bytes_in_use(),
        release: [0, 1].map(|way| each(&released, way, RELEASES)),
        step: step(history),
        lookup: [
            each(&looked, 0, LOOKUPS),
            each(&looked, 1, LOOKUPS),
            on_judged(history),
        ],
        ratios: [released.ratio(1, 0), looked.ratio(1, 0)],
    }
}

/// Measured at each point of one history, with a line of the table for each.
fn rows(settings: usize) -> Vec<Measured> {
    held(settings);
    let mut history = History::new(settings);
    let all = POINTS.map(|versions| {
        while history.versions() < versions {
            history.release();
        }
        let row = measured(&mut history);
        let at = |quartiles: Quartiles| match quartiles[0] > 0.0 {
            true => told(quartiles[1]),
            false => String::new(),
        };
        println!(
            "| {settings} | {versions} | {} | {} | {} | {} | {} | {} | {} | {} | {} | {} |",
            row.lists_bytes,
            row.used_bytes,
            at(row.release[0]),
            at(row.release[1]),
            times(row.ratios[0]),
            at(row.step),
            at(row.lookup[0]),
            at(row.lookup[1]),
            times(row.ratios[1]),
            at(row.lookup[2]),
        );
        row
    });
    all.into()
}

fn series(
    (name, colour, dashed): (&'static str, &'static str, bool),
    rows: &[Measured],
    of: impl Fn(&Measured) -> Quartiles,
) -> Series {
    let point = |row: &Measured| Point {
        place: row.versions,
        quartiles: of(row),
    };
    Series {
        name,
        colour,
        dashed,
        points: rows.iter().map(point).collect(),
    }
}

const LISTS: &str = "#b3461f";
const OFFERED: &str = "#1f5fa8";
const ONCE: &str = "#2a8a57";

fn times_panel(rows: &[Measured]) -> Panel {
    Panel {
        title: "time, 500 settings".to_string(),
        axis: "versions".to_string(),
        measure: Measure::Time,
        series: vec![
            series(("lists: a release", LISTS, false), rows, |row| {
                row.release[0]
            }),
            series(
                ("store: a release, as offered", OFFERED, false),
                rows,
                |row| row.release[1],
            ),
            series(("store: a step of a return", ONCE, false), rows, |row| {
                row.step
            }),
            series(("lists: a lookup", LISTS, true), rows, |row| row.lookup[0]),
            series(
                ("store: a lookup, as offered", OFFERED, true),
                rows,
                |row| row.lookup[1],
            ),
            series(("store: a lookup, judged once", ONCE, true), rows, |row| {
                row.lookup[2]
            }),
        ],
    }
}

fn bytes_panel(many: &[Measured], few: &[Measured]) -> Panel {
    let same = |bytes: usize| [bytes as f64; 3];
    Panel {
        title: "bytes kept".to_string(),
        axis: "versions".to_string(),
        measure: Measure::Bytes,
        series: vec![
            series(("lists, 500 settings", LISTS, false), many, |row| {
                same(row.lists_bytes)
            }),
            series(("store, 500: pages in use", OFFERED, false), many, |row| {
                same(row.used_bytes)
            }),
            series(("store: pages lent", ONCE, false), many, |_| {
                same(PAGES * PAGE_BYTES)
            }),
            series(("lists, 50 settings", LISTS, true), few, |row| {
                same(row.lists_bytes)
            }),
            series(("store, 50: pages in use", OFFERED, true), few, |row| {
                same(row.used_bytes)
            }),
        ],
    }
}

pub fn versions() {
    println!("## Many versions\n");
    println!("| settings | versions | lists, bytes | store, bytes in use | a release: lists | store, as offered | ratio | a step of a return | a lookup: lists | store, as offered | ratio | store, judged once |");
    println!("|---|---|---|---|---|---|---|---|---|---|---|---|");
    let (few, many) = (rows(50), rows(500));
    println!();
    let chart = Chart {
        title: "Lists and a store of 4,096 pages, one change in each version".to_string(),
        note: "Medians of one run, joined; the upright lines are the quartiles. No mark: nothing to return, or not to be told from judging."
            .to_string(),
        panels: vec![bytes_panel(&many, &few), times_panel(&many)],
    };
    std::fs::write(PATH, chart.svg()).expect("docs/versions.svg");
    println!("docs/versions.svg is written.");
}

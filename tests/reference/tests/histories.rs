//! Thousands of histories from a seed beside one ordered map for each version.

mod common;

use common::follow::{follow, Followed};
use common::rounds;
use reference::beside::Tally;
use reference::calls;
use reference::edition::SECOND;
use reference::history::{History, Kind, KINDS};

fn followed(seed: u64, kind: Kind, pages: usize, count: usize) -> Followed {
    let mut history = History::new(seed, kind, pages);
    // The first call makes the store fresh, whatever the bytes were.
    follow(&mut history, vec![seed as u8; pages * 256], count)
}

fn followed_second(seed: u64, kind: Kind, pages: usize, count: usize) -> Followed {
    let mut history = History::of(&SECOND, seed, kind, pages);
    follow(&mut history, vec![seed as u8; pages * 512], count)
}

/// How often each number was given over many histories, and what was met.
#[derive(Debug, Default)]
struct Met {
    calls: Tally,
    highest_level: u32,
    abandons: u64,
    roots_that_went: u64,
    returns: u64,
    stopped: u64,
    prunes: u64,
}

impl Met {
    fn add(&mut self, followed: Followed) {
        for (number, times) in followed.tally {
            *self.calls.entry(number).or_default() += times;
        }
        self.highest_level = self.highest_level.max(followed.highest_level);
        self.abandons += followed.abandons;
        self.roots_that_went += followed.roots_that_went;
        self.returns += followed.returns;
        self.stopped += followed.stopped;
        self.prunes += followed.prunes;
    }

    fn given(&self, number: u32) -> u64 {
        self.calls.get(&number).copied().unwrap_or(0)
    }
}

#[test]
fn small_stores() {
    let mut met = Met::default();
    for seed in 0..rounds(2400) {
        let pages = 6 + (seed as usize * 7) % 42;
        met.add(followed(seed, KINDS[seed as usize % 4], pages, 110));
    }
    println!("{met:?}");
    for number in [0, 5, 6, 7, 8, 10, 11, 12, 14, 15] {
        assert!(met.given(number) > 100, "{number}: {met:?}");
    }
    assert!(met.abandons > 100 && met.roots_that_went > 60, "{met:?}");
    assert!(met.returns > 1000 && met.stopped > 40, "{met:?}");
}

#[test]
fn middling_stores() {
    let mut met = Met::default();
    for seed in 0..rounds(120) {
        let pages = 48 + (seed as usize * 13) % 209;
        met.add(followed(seed, KINDS[seed as usize % 4], pages, 700));
    }
    println!("{met:?}");
    assert!(
        met.highest_level >= 3 && met.roots_that_went > 20,
        "{met:?}"
    );
}

#[test]
fn grown_to_level_three_and_shrunk_again() {
    let mut met = Met::default();
    for seed in 0..rounds(8) {
        // Of these none returns to what was before it grew.
        let seed = seed + seed / 4 * 4;
        met.add(followed(seed, Kind::GrowThenShrink, 256, 2500));
    }
    println!("{met:?}");
    assert!(met.highest_level >= 3 && met.roots_that_went > 2, "{met:?}");
}

#[test]
fn large_stores() {
    let mut met = Met::default();
    for (seed, pages) in [(1, 1024), (2, 4096), (3, 2048)] {
        let count = rounds(700) as usize;
        met.add(followed(seed, Kind::GrowThenShrink, pages, count));
        met.add(followed(seed, Kind::Mixed, pages, count));
    }
    println!("{met:?}");
    assert!(met.highest_level >= 2, "{met:?}");
}

#[test]
fn small_stores_of_edition_2() {
    let mut met = Met::default();
    for seed in 0..rounds(900) {
        let pages = 6 + (seed as usize * 7) % 42;
        met.add(followed_second(seed, KINDS[seed as usize % 4], pages, 160));
    }
    println!("{met:?}");
    for number in [0, 5, 6, 7, 8, 10, 11, 12, 14, 15] {
        assert!(met.given(number) > 50, "{number}: {met:?}");
    }
    assert!(met.abandons > 50 && met.roots_that_went > 3, "{met:?}");
    assert!(met.returns > 300 && met.stopped > 10, "{met:?}");
    assert!(met.prunes > 300, "{met:?}");
}

#[test]
fn larger_stores_of_edition_2() {
    let mut met = Met::default();
    for seed in 0..rounds(30) {
        let pages = 48 + (seed as usize * 13) % 209;
        let kind = KINDS[seed as usize % 4];
        met.add(followed_second(seed, kind, pages, 900));
    }
    for seed in 0..rounds(3) {
        // Of these none returns to what was before it grew.
        let kind = Kind::GrowThenShrink;
        met.add(followed_second(seed, kind, 256, 4000));
    }
    println!("{met:?}");
    assert!(met.highest_level >= 3 && met.roots_that_went > 2, "{met:?}");
}

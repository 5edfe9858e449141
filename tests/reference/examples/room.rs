//! How much fits: README's two tables, measured.
//!
//! A release changes settings drawn at random: each is deleted and inserted
//! anew with another value.

use reference::rng::Rng;
use reference::unjudged::{abandon, commit, delete, insert, open};
use reference::{calls, number};

const PAGES: [usize; 4] = [16, 64, 256, 4096];

fn fresh(pages: usize) -> Vec<u8> {
    let mut store = vec![0; pages * 256];
    assert_eq!(calls::fresh(&mut store), number::DONE);
    store
}

/// How many settings one release takes, keys in this order.
fn settings(pages: usize, mut key: impl FnMut() -> u32) -> u32 {
    let mut store = fresh(pages);
    assert_eq!(open(&mut store), number::DONE);
    let mut held = 0;
    loop {
        match insert(&mut store, key(), held) {
            number::DONE => held += 1,
            number::KEY_ALIVE => {}
            _ => return held,
        }
    }
}

/// A release with these changes; the number that stopped it, if one did.
fn release(store: &mut [u8], keys: &[u32], changes: u32, rng: &mut Rng) -> Option<u32> {
    assert_eq!(open(store), number::DONE);
    let mut turn = || {
        for _ in 0..changes {
            let key = keys[rng.below(keys.len() as u32) as usize];
            let gave = [delete(store, key), insert(store, key, rng.word())];
            if let Some(stopped) = gave.into_iter().find(|&gave| gave != number::DONE) {
                return Some(stopped);
            }
        }
        None
    };
    let stopped = turn();
    match stopped {
        Some(_) => assert_eq!(abandon(store), number::DONE),
        None => assert_eq!(commit(store), number::DONE),
    }
    stopped
}

/// How many releases fit behind a first one of `held` settings, and the number
/// that the next one gives.
fn releases(pages: usize, held: usize, changes: u32, seed: u64) -> Option<(u32, u32)> {
    let mut rng = Rng::new(seed);
    let mut store = fresh(pages);
    assert_eq!(open(&mut store), number::DONE);
    let mut keys = Vec::new();
    while keys.len() < held {
        let key = rng.below(16_776_960);
        match insert(&mut store, key, 0) {
            number::DONE => keys.push(key),
            number::KEY_ALIVE => {}
            _ => return None,
        }
    }
    assert_eq!(commit(&mut store), number::DONE);
    let mut made = 0;
    loop {
        if let Some(stopped) = release(&mut store, &keys, changes, &mut rng) {
            return Some((made, stopped));
        }
        made += 1;
    }
}

/// How many settings a store of each size takes in one update.
fn all_settings() {
    println!("| pages | bytes | keys rising | keys in any order |");
    println!("|---|---|---|---|");
    for pages in PAGES {
        let mut next = 0;
        let rising = settings(pages, || {
            next += 1;
            next
        });
        let mut rng = Rng::new(1);
        let any = settings(pages, || rng.below(16_776_960));
        println!("| {pages} | {} | {rising} | {any} |", pages * 256);
    }
    println!();
}

/// How many settings a store has, and how many of them a release changes.
const MIXES: [(usize, u32); 9] = [
    (10, 1),
    (50, 1),
    (50, 5),
    (50, 20),
    (500, 1),
    (500, 20),
    (500, 100),
    (5000, 20),
    (5000, 1000),
];

/// How many releases fit, as the median of five.
fn all_releases() {
    println!("| settings | changes in a release | 64 pages | 256 pages | 4,096 pages |");
    println!("|---|---|---|---|---|");
    for (held, changes) in MIXES {
        print!("| {held} | {changes} |");
        for pages in [64, 256, 4096] {
            let mut all: Vec<_> = (1..=5)
                .map(|seed| releases(pages, held, changes, seed))
                .collect();
            all.sort();
            match all[2] {
                None => print!(" - |"),
                Some((made, stopped)) => print!(" {made}, then {stopped} |"),
            }
        }
        println!();
    }
}

fn main() {
    all_settings();
    all_releases();
}

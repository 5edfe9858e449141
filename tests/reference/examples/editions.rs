//! The two editions beside each other: how many releases fit into equal bytes,
//! and how large a target a conversion takes. README's and BENCH's tables.
//!
//! A release changes settings drawn at random: each is deleted and inserted
//! anew with another value.

use reference::edition::{Edition, FIRST, SECOND};
use reference::rng::Rng;
use reference::store::write_fresh;
use reference::unjudged::{abandon, commit, delete, insert, open};
use reference::{calls, number};

const MIXES: [(usize, u32); 5] = [(50, 1), (50, 20), (500, 1), (500, 20), (500, 100)];

/// A release with these changes, abandoned where a step is refused; its number.
fn release(store: &mut [u8], keys: &[u32], changes: u32, rng: &mut Rng) -> u32 {
    assert_eq!(open(store), number::DONE);
    for _ in 0..changes {
        let key = keys[rng.below(keys.len() as u32) as usize];
        let gave = delete(store, key).max(insert(store, key, rng.word()));
        if gave != number::DONE {
            assert_eq!(abandon(store), number::DONE);
            return gave;
        }
    }
    commit(store)
}

/// A first release of so many settings, and then as many as fit: how many, and
/// the number that the next one gives.
fn filled(edition: &'static Edition, bytes: usize, mix: (usize, u32)) -> (Vec<u8>, u32, u32) {
    let mut rng = Rng::new(1);
    let mut store = vec![0; bytes];
    write_fresh(edition, &mut store);
    let mut keys = Vec::new();
    assert_eq!(open(&mut store), number::DONE);
    while keys.len() < mix.0 {
        let key = rng.below(16_776_960);
        if insert(&mut store, key, 0) == number::DONE {
            keys.push(key);
        }
    }
    assert_eq!(commit(&mut store), number::DONE);
    let mut made = 0;
    loop {
        match release(&mut store, &keys, mix.1, &mut rng) {
            number::DONE => made += 1,
            stopped => return (store, made, stopped),
        }
    }
}

/// The fewest pages of a target into which the store goes; none if 4,096 do not
/// suffice.
fn pages(source: &[u8]) -> Option<usize> {
    let fits = |pages: usize| calls::convert(source, &mut vec![0; pages * SECOND.page_bytes]) == 0;
    let (mut low, mut high) = (5, 4096);
    if !fits(high) {
        return None;
    }
    while high - low > 1 {
        let middle = (low + high) / 2;
        match fits(middle) {
            true => high = middle,
            false => low = middle,
        }
    }
    Some(high)
}

fn main() {
    println!("| bytes | settings | changes in a release | edition 1 | edition 2 | target of a conversion, pages of 512 bytes |");
    println!("|---|---|---|---|---|---|");
    for bytes in [65_536, 1_048_576] {
        for mix in MIXES {
            let (source, first, stopped) = filled(&FIRST, bytes, mix);
            let (_, second, then) = filled(&SECOND, bytes, mix);
            let target = match pages(&source) {
                Some(pages) => pages.to_string(),
                None => "more than 4,096, or 13".into(),
            };
            println!(
                "| {bytes} | {} | {} | {first}, then {stopped} | {second}, then {then} | {target} of {} |",
                mix.0,
                mix.1,
                bytes / SECOND.page_bytes
            );
        }
    }
}

//! Lookups on a store that is judged once, beside one sorted list for each
//! version, which is what request 2026-11 compares with; and the offered calls,
//! which judge what they read (2026-04), beside judging all.

use std::hint::black_box;

use hostile::stores;
use reference::layout::{FIRST_BENCH_KEY, HIGHEST_KEY, PAGE_BYTES};
use reference::model::Model;
use reference::rng::Rng;
use reference::{calls, number, store, unjudged, walk};

use crate::proved;
use hostile::measure::{in_turn, times, told};

/// Lookups in one go: of keys that lie evenly over all keys, so most are absent
/// ones, whose way down is as long.
const LOOKUPS: u32 = 100_000;
const STEP: u32 = 7_368_787;

/// The sum, modulo 2^32, of what the lookups find in a sorted list.
fn in_list(list: &[(u32, u32)]) -> u64 {
    let (mut key, mut sum) = (1, 0u64);
    for _ in 0..LOOKUPS {
        if let Ok(place) = list.binary_search_by_key(&key, |setting| setting.0) {
            sum = (sum + u64::from(list[place].1)) % (1 << 32);
        }
        key = (key + STEP) % (HIGHEST_KEY + 1);
    }
    sum
}

pub fn lookups() {
    on_a_judged_store();
    as_offered();
}

/// A lookup, and a range of the ten settings from the middle on, on stores with
/// no update open: a commit judges, and is refused by number 7 right after.
fn as_offered() {
    println!("## Lookups and ranges as they are offered\n");
    println!("| pages | versions | level | of a judging | a lookup | a range of ten | judging |");
    println!("|---|---|---|---|---|---|---|");
    for (pages, versions) in [(256, 2), (256, 32), (256, 1024), (4096, 2), (4096, 32)] {
        let store = stores::grown(pages, versions);
        let version = versions as u32;
        let model = Model::of_store(&store);
        let settings: Vec<(u32, u32)> = model.at(version).iter().map(|(k, v)| (*k, *v)).collect();
        let (middle, mut list, mut lent) = (settings.len() / 2, [0; 20], store.clone());
        let (low, value) = settings[middle];
        let high = settings[middle + 9].0;
        assert_eq!(proved::lookup(&store, low, version), (0, true, value));
        let ten = proved::range_from(&store, (low, high), version, &mut list);
        assert_eq!((ten, &list[..2]), ((0, 10), &[low, value][..]));
        assert_eq!(proved::commit(&mut lent), number::NONE_OPEN);
        let level = walk::path(&store, low, version).len();
        let taken = in_turn(&mut [
            &mut || proved::lookup(black_box(&store), low, version).2.into(),
            &mut || proved::range_from(black_box(&store), (low, high), version, &mut list).1 as u64,
            &mut || proved::commit(black_box(&mut lent)).into(),
        ]);
        let each = [0, 1, 2].map(|way| told(taken.of(way))).join(" | ");
        let part = taken.ratio(2, 0);
        println!("| {pages} | {versions} | {level} | 1 / {part:.0} | {each} |");
    }
    println!();
}

/// A store with so many roots: ten settings, one page, of which each version changes one until they are there but for one,
/// which the last version adds, with as many settings as find room in the other pages.
fn rooted(pages: usize, roots: u32) -> Vec<u8> {
    let (mut bytes, mut rng) = (vec![0; pages * PAGE_BYTES], Rng::new(1));
    assert_eq!(calls::fresh(&mut bytes), number::DONE);
    let mut version = |step: &mut dyn FnMut(&mut [u8], u32) -> bool| {
        assert_eq!(unjudged::open(&mut bytes), number::DONE);
        while step(&mut bytes, rng.below(FIRST_BENCH_KEY)) {}
        assert_eq!(unjudged::raw_commit(&mut bytes), number::DONE);
        store::header(&bytes).roots
    };
    let mut keys = Vec::new();
    version(&mut |bytes, key| {
        keys.push(key);
        assert_eq!(unjudged::insert(bytes, key, key), number::DONE);
        keys.len() < 10
    });
    let mut turns = (0..10).cycle();
    let mut change = |bytes: &mut [u8], value| {
        let key = keys[turns.next().expect("it goes on")];
        assert_eq!(unjudged::delete(bytes, key), number::DONE);
        assert_eq!(unjudged::insert(bytes, key, value), number::DONE);
        false
    };
    while version(&mut change) + 1 < roots {}
    version(&mut |bytes, key| unjudged::insert(bytes, key, key) != number::NO_FREE_PAGE);
    bytes
}

fn on_a_judged_store() {
    println!("## Lookups on a judged store\n");
    println!("Times as long as a binary search in one sorted list for each version.\n");
    println!(
        "| store | pages | roots | level | settings | ratio | proved, one lookup | sorted list | judging once |"
    );
    println!("|---|---|---|---|---|---|---|---|---|");
    for (pages, versions) in [(16, 8), (256, 32), (4096, 32)] {
        let name = format!("a history of {versions} versions");
        judged_row(&name, &stores::grown(pages, versions));
    }
    for (pages, roots) in [(256, 8), (256, 128), (256, 240), (4096, 8), (4096, 256)] {
        judged_row("one change a version, then many", &rooted(pages, roots));
    }
    println!();
}

fn judged_row(name: &str, bytes: &[u8]) {
    let version = store::header(bytes).current;
    let model = Model::of_store(bytes);
    let list: Vec<(u32, u32)> = model.at(version).iter().map(|(k, v)| (*k, *v)).collect();
    let found = proved::lookups(bytes, 1, STEP, LOOKUPS, version);
    assert_eq!(found, in_list(&list));
    // the last way is nothing, which is taken off the list's as judging is off the first
    let taken = in_turn(&mut [
        &mut || proved::lookups(black_box(bytes), 1, STEP, LOOKUPS, version),
        &mut || proved::lookups(black_box(bytes), 1, STEP, 0, version),
        &mut || in_list(black_box(&list)),
        &mut || 0,
    ]);
    let each = |seconds: f64| told(seconds / f64::from(LOOKUPS));
    println!(
        "| {name} | {} | {} | {} | {} | {} | {} | {} | {} |",
        bytes.len() / PAGE_BYTES,
        store::header(bytes).roots,
        walk::path(bytes, 1, version).len(),
        list.len(),
        times(taken.ratio_of_more([0, 1], [2, 3])),
        each(taken.more(0, 1)[1]),
        each(taken.of(2)),
        told(taken.of(1))
    );
}

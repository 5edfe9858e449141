//! Every call beside the reference, on stores of every kind:
//! number, results, every byte of the store, every number of the list.

mod common;

use std::collections::BTreeMap;

use common::{both, may_write, rounds};
use host::Proved;
use reference::beside::run;
use reference::damage::{kinds, tamper};
use reference::engine::{Call, Reference};
use reference::history::{History, KINDS};
use reference::rng::Rng;
use reference::samples::sound_store;
use reference::store::header;

const FIRST_BENCH_KEY: u32 = 16_776_960;
const HIGHEST_KEY: u32 = 16_777_215;
const HIGHEST_VERSION: u32 = 1_048_574;

/// Calls at the edges of what document 01 allows, for a store whose last
/// version is `last` and which shows `found` settings there.
fn edge_calls(last: u32, found: usize) -> Vec<Call> {
    let bench = [FIRST_BENCH_KEY - 1, FIRST_BENCH_KEY];
    let keys = [0, 1, 40, HIGHEST_KEY, HIGHEST_KEY + 1, u32::MAX];
    let near = [0, last.saturating_sub(1), last, last + 1];
    let far = [HIGHEST_VERSION - 1, HIGHEST_VERSION, HIGHEST_VERSION + 1];
    let versions = near.into_iter().chain(far).chain([u32::MAX]);
    let mut calls = vec![Call::Check, Call::State, Call::Open, Call::Commit];
    calls.push(Call::Abandon);
    calls.extend(keys.map(|key| Call::Insert(key, u32::MAX - key)));
    calls.extend(bench.map(|key| Call::Insert(key, 0)));
    calls.extend(bench.map(Call::Delete));
    calls.extend(keys.map(Call::Delete));
    for version in versions {
        calls.push(Call::Return(version));
        calls.push(Call::Prune(version));
        calls.extend(keys.map(|key| Call::Lookup(key, version)));
        calls.push(Call::Range(0, HIGHEST_KEY, version, 2 * found + 3));
        calls.push(Call::Range(0, HIGHEST_KEY, version, 0));
    }
    let all = [0, 1, 2 * found.max(1) - 1, 2 * found, 2 * found + 1];
    calls.extend(all.map(|room| Call::Range(0, HIGHEST_KEY, last, room)));
    for (low, high) in [(9, 8), (8, 8), (0, HIGHEST_KEY + 1), (HIGHEST_KEY + 1, 0)] {
        calls.push(Call::Range(low, high, last, 2 * found));
    }
    calls
}

/// Every edge call on a store, and some lookups and ranges inside it.
fn try_all(store: &[u8], rng: &mut Rng, tally: &mut BTreeMap<u32, u64>) {
    let last = match store.len() >= 256 {
        true => header(store).last(),
        false => 0,
    };
    let (whole, _) = both(Call::Range(0, HIGHEST_KEY, last, 4096), store);
    // On damaged bytes a range may find any number.
    let mut calls = edge_calls(last, whole.count.min(4096) as usize);
    for _ in 0..12 {
        let (low, high) = (rng.below(4000), rng.below(4000));
        let version = rng.below(last.min(5000) + 2);
        calls.push(Call::Lookup(low, version));
        calls.push(Call::Insert(low, high));
        calls.push(Call::Delete(low));
        calls.push(Call::Return(version));
        calls.push(Call::Range(
            low,
            low + high,
            version,
            rng.below(60) as usize,
        ));
    }
    for call in calls {
        let (answer, after) = both(call, store);
        *tally.entry(answer.number).or_default() += 1;
        let untouched = !may_write(call, answer.number);
        assert!(!untouched || after == store, "{call:?}");
    }
}

#[test]
fn every_call_on_sound_stores() {
    let mut tally = BTreeMap::new();
    for seed in 0..rounds(60) {
        try_all(&sound_store(seed), &mut Rng::new(seed), &mut tally);
    }
    println!("numbers given, times: {tally:?}");
    // 3 by prunes: these stores are of edition 1.
    for number in [0, 3, 5, 6, 7, 8, 10, 11, 14, 15] {
        assert!(tally.contains_key(&number), "{number} was never given");
    }
}

#[test]
fn every_call_on_damaged_and_foreign_bytes() {
    let mut tally = BTreeMap::new();
    let kinds = kinds();
    for seed in 0..rounds(12) {
        let mut rng = Rng::new(seed);
        let mut store = sound_store(seed);
        if kinds[seed as usize % kinds.len()].make(&mut store, &mut rng) {
            try_all(&store, &mut rng, &mut tally);
        }
        let mut store = sound_store(seed + 1);
        tamper::flip_bit(&mut store, &mut rng);
        try_all(&store, &mut rng, &mut tally);
        let length = 128 * rng.below(60) as usize;
        let mut any: Vec<u8> = (0..length).map(|_| rng.word() as u8).collect();
        try_all(&any, &mut rng, &mut tally);
        if length > 0 {
            let named = &sound_store(seed)[..5];
            any[..5].copy_from_slice(named);
            try_all(&any, &mut rng, &mut tally);
        }
    }
    println!("numbers given, times: {tally:?}");
    for number in [1, 2, 4] {
        assert!(tally.contains_key(&number), "{number} was never given");
    }
}

/// Histories with splits, merges, new roots and abandons in between.
#[test]
fn histories() {
    let mut calls = 0;
    for seed in 0..rounds(40) {
        let pages = 6 + 7 * (seed as usize % 9);
        let mut history = History::new(seed, KINDS[seed as usize % 4], pages);
        let store = vec![0xEE; 256 * pages];
        let (tally, _) = run(&mut Reference, &mut Proved, &mut history, &store, 300)
            .unwrap_or_else(|difference| panic!("seed {seed}: {difference:?}"));
        calls += tally.values().sum::<u64>();
    }
    println!("{calls} calls compared");
}

/// Two releases, the old one read back, a third abandoned.
#[test]
fn going_back_is_also_a_release() {
    let mut store = vec![0; 16 * 256];
    assert_eq!(host::fresh(&mut store), 0);
    assert_eq!(host::open(&mut store), 0);
    assert_eq!(host::insert(&mut store, 5, 50), 0);
    assert_eq!(host::insert(&mut store, 9, 90), 0);
    assert_eq!(host::commit(&mut store), 0);
    assert_eq!(host::open(&mut store), 0);
    assert_eq!(host::delete(&mut store, 5), 0);
    assert_eq!(host::commit(&mut store), 0);
    let released = store.clone();
    assert_eq!(host::open(&mut store), 0);
    assert_eq!(host::insert(&mut store, 7, 70), 0);
    assert_eq!(host::abandon(&mut store), 0);
    assert_eq!(store, released);
    assert_eq!(host::lookup(&store, 5, 1), (0, true, 50));
    assert_eq!(host::lookup(&store, 5, 2), (0, false, 0));
    let mut list = [1; 5];
    assert_eq!(host::range(&store, 0, 20, 1, &mut list), (0, 2));
    assert_eq!(list, [5, 50, 9, 90, 1]);
}

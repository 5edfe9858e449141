//! Bytes of every kind to lend: sound, damaged, and any at all.

use std::collections::BTreeMap;

use super::{both, may_write};
use reference::damage::{kinds, tamper};
use reference::edition::{Edition, FIRST};
use reference::engine::Call;
use reference::layout::{FIRST_BENCH_KEY, HIGHEST_KEY, HIGHEST_VERSION};
use reference::rng::Rng;
use reference::samples::sound_store_of;
use reference::{store, walk};

/// A sound store of edition 1, and what damage makes of it: one rule broken, a
/// bit or a field changed, cut, or any bytes in its place.
pub fn stores(seed: u64) -> Vec<Vec<u8>> {
    stores_of(&FIRST, seed)
}

/// The same of any edition.
pub fn stores_of(edition: &'static Edition, seed: u64) -> Vec<Vec<u8>> {
    let mut rng = Rng::new(seed);
    let sound = sound_store_of(edition, seed);
    let kinds = kinds();
    let mut broken = sound.clone();
    kinds[seed as usize % kinds.len()].make(&mut broken, &mut rng);
    let (mut flipped, mut set) = (sound.clone(), sound.clone());
    tamper::flip_bit(&mut flipped, &mut rng);
    for _ in 0..rng.between(1, 3) {
        tamper::set_some_field(&mut set, &mut rng);
    }
    let cut = sound[..rng.below(sound.len() as u32) as usize].to_vec();
    let length = 128 * rng.below(60) as usize;
    let any = (0..length).map(|_| rng.word() as u8).collect();
    vec![sound, broken, flipped, set, cut, any]
}

/// Keys at the borders, and some that are alive somewhere.
pub fn some_keys(bytes: &[u8], rng: &mut Rng) -> Vec<u32> {
    let mut keys = vec![0, 1, HIGHEST_KEY, HIGHEST_KEY + 1, u32::MAX];
    keys.extend([FIRST_BENCH_KEY - 1, FIRST_BENCH_KEY]);
    if reference::calls::check(bytes).0 == 0 {
        let header = store::header(bytes);
        let version = rng.between(header.oldest, header.last());
        let settings = walk::range(bytes, 0, HIGHEST_KEY, version);
        for _ in 0..3 {
            keys.extend(rng.pick(&settings).map(|(key, _)| *key));
        }
    }
    keys.push(rng.below(HIGHEST_KEY));
    keys
}

/// Versions at the borders, and some between.
pub fn some_versions(bytes: &[u8], rng: &mut Rng) -> Vec<u32> {
    let last = match bytes.len() >= 256 {
        true => store::header(bytes).last(),
        false => 0,
    };
    let between = rng.between(0, last);
    let mut versions = vec![0, 1, last.saturating_sub(1), last, last + 1];
    if bytes.len() >= 256 && Edition::of(bytes) != &FIRST {
        let oldest = store::header(bytes).oldest;
        versions.extend([oldest.saturating_sub(1), oldest, oldest + 1]);
    }
    versions.extend([between, HIGHEST_VERSION, HIGHEST_VERSION + 1, u32::MAX]);
    versions
}

/// Calls at the borders of keys, versions and lists.
pub fn border_calls(bytes: &[u8], rng: &mut Rng) -> Vec<Call> {
    let mut calls = vec![Call::Check, Call::State, Call::Open, Call::Commit];
    calls.push(Call::Abandon);
    let (keys, versions) = (some_keys(bytes, rng), some_versions(bytes, rng));
    for key in &keys {
        calls.push(Call::Insert(*key, rng.word()));
        calls.push(Call::Delete(*key));
        calls.push(Call::Life(*key, rng.below(9) as usize));
    }
    for version in versions.iter().copied() {
        let key = *rng.pick(&keys).unwrap_or(&0);
        let other = *rng.pick(&versions).unwrap_or(&0);
        let room = rng.below(300) as usize;
        calls.push(Call::Return(version));
        calls.push(Call::Prune(version));
        calls.push(Call::Lookup(key, version));
        calls.push(Call::Visits(key, version, rng.below(6) as usize));
        calls.push(Call::Range(0, HIGHEST_KEY, version, room));
        calls.push(Call::Range(key, HIGHEST_KEY, version, 0));
        calls.push(Call::Difference(version, other, 2 * room));
    }
    calls
}

/// All of these by both programs; how often each number was given.
pub fn all_alike(bytes: &[u8], rng: &mut Rng, tally: &mut BTreeMap<u32, u64>) {
    for call in border_calls(bytes, rng) {
        let (answer, after) = both(call, bytes);
        *tally.entry(answer.number).or_default() += 1;
        let untouched = !may_write(call, answer.number);
        assert!(!untouched || after == bytes, "{call:?}");
    }
}

/// What both say of a store, which they leave alone: the number and the rule.
pub fn judged(store: &[u8]) -> (u32, u32) {
    let (answer, after) = both(Call::Check, store);
    assert_eq!(after, store);
    (answer.number, answer.rule)
}

/// How often each number was given with each rule.
pub type Verdicts = BTreeMap<(u32, u32), u64>;

/// Every kind of damage that finds a place in a sound store: each is judged by the
/// lowest rule that it breaks.
pub fn each_kind_by_its_rule(sound: &[u8], rng: &mut Rng, verdicts: &mut Verdicts) {
    for kind in kinds() {
        let mut store = sound.to_vec();
        if kind.make(&mut store, rng) {
            let given = judged(&store);
            assert_eq!(given, (4, kind.rule), "{}", kind.name);
            *verdicts.entry(given).or_default() += 1;
        }
    }
}

/// Stores that are nearly sound: so many, each with some changes.
pub fn nearly_sound(
    sound: &[u8],
    count: u32,
    mut change: impl FnMut(&mut [u8]),
    verdicts: &mut Verdicts,
) {
    for _ in 0..count {
        let mut store = sound.to_vec();
        change(&mut store);
        *verdicts.entry(judged(&store)).or_default() += 1;
    }
}

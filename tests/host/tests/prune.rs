//! Pruning by both programs: the cases of `tests/reference`, histories with
//! prunes, and every call on pruned stores, sound and damaged; number, results,
//! every byte of the store, every number of the list.

#[path = "common/mod.rs"]
mod beside;

#[path = "../../reference/tests/common/mod.rs"]
mod common;

#[path = "../../reference/tests/cases/prune.rs"]
mod prune;

use std::collections::BTreeMap;

use beside::calls;
use beside::met::Met;
use beside::stores::{all_alike, each_kind_by_its_rule, judged, nearly_sound, Verdicts};
use beside::{both, rounds};
use reference::damage::{kinds, tamper};
use reference::edition::SECOND;
use reference::engine::Call;
use reference::history::{History, Kind, KINDS};
use reference::layout::HIGHEST_KEY;
use reference::rng::Rng;
use reference::samples::pruned_store;
use reference::wild::wild_store_of;
use reference::{pruned, store};

/// The seeds of histories that prune.
fn pruning(seed: u64) -> u64 {
    seed / 8 * 16 + 8 + seed % 8
}

fn tell(met: &Met) {
    println!("{met:?}");
    for number in [0, 6, 8] {
        assert!(met.prunes.contains_key(&number), "{number}: {met:?}");
    }
}

/// From a fresh store: prunes done, above current, below the oldest, and inside
/// an update; updates that use freed pages, and abandons of them.
#[test]
fn histories() {
    let mut met = Met::default();
    for seed in 0..rounds(48) {
        let pages = 8 + 5 * (seed as usize % 9);
        let kind = KINDS[seed as usize % 4];
        let mut history = History::of(&SECOND, pruning(seed), kind, pages);
        met.run(&mut history, vec![0xEE; 512 * pages], 400);
    }
    tell(&met);
    assert!(met.given(12) > 0, "{met:?}");
    met.rebuilt();
}

/// Larger ones that grow to level 3.
#[test]
fn grown() {
    let mut met = Met::default();
    for seed in 0..rounds(2) {
        let mut history = History::of(&SECOND, pruning(seed), Kind::GrowThenShrink, 128);
        met.run(&mut history, vec![0; 512 * 128], 2500);
    }
    tell(&met);
    assert!(met.highest_level >= 3, "{met:?}");
}

/// From pruned stores, half of them with what no call leaves below the oldest
/// version.
#[test]
fn histories_from_elsewhere() {
    let mut met = Met::default();
    for seed in 0..rounds(100) {
        let kind = KINDS[seed as usize % 4];
        met.go_on(pruned_store(seed), pruning(seed), kind, 60);
    }
    tell(&met);
}

/// Few pages, pruned to its last releases again and again: it goes on in them.
#[test]
fn releases_without_end() {
    let mut met = Met::default();
    let mut rng = Rng::new(12);
    let bytes = common::fresh_second(20);
    let (mut left, mut right) = (bytes.clone(), bytes);
    let mut done = |call: Call| met.call(call, &mut left, &mut right).number;
    assert_eq!(done(Call::Open), 0);
    for key in 0..100 {
        assert_eq!(done(Call::Insert(3 * key, key)), 0);
    }
    assert_eq!(done(Call::Commit), 0);
    for release in 2..=rounds(150) as u32 {
        assert_eq!(done(Call::Open), 0);
        for _ in 0..4 {
            let key = 3 * rng.below(100);
            assert_eq!(done(Call::Delete(key)), 0);
            assert_eq!(done(Call::Insert(key, rng.word())), 0);
        }
        assert_eq!(done(Call::Commit), 0);
        if release % 8 == 0 {
            assert_eq!(done(Call::Prune(release - 8)), 0);
        }
    }
    println!("{met:?}");
}

/// Every call at the borders of keys, versions and lists: on pruned stores, on
/// what they bear, and on damaged ones.
#[test]
fn every_call_on_pruned_and_damaged_stores() {
    let mut tally = BTreeMap::new();
    let kinds = kinds();
    for seed in 0..rounds(40) {
        let mut rng = Rng::new(seed);
        let sound = pruned_store(seed);
        let (mut borne, mut broken, mut set) = (sound.clone(), sound.clone(), sound.clone());
        pruned::unsettle(&mut borne, &mut rng);
        kinds[seed as usize % kinds.len()].make(&mut broken, &mut rng);
        tamper::set_some_field(&mut set, &mut rng);
        for bytes in [sound, borne, broken, set] {
            all_alike(&bytes, &mut rng, &mut tally);
        }
    }
    println!("numbers given, times: {tally:?}");
    for number in [0, 4, 5, 6, 7, 8, 10, 11, 14] {
        assert!(tally.contains_key(&number), "{number}: {tally:?}");
    }
}

/// Every call at those borders on each kind of damage that a pruned store bears,
/// the ten around its oldest version among them.
#[test]
fn every_call_on_each_kind_of_damage() {
    let mut tally = BTreeMap::new();
    for kind in kinds() {
        let damaged = (0..200).find_map(|seed| {
            let mut bytes = pruned_store(seed);
            let made = kind.make(&mut bytes, &mut Rng::new(seed));
            made.then_some(bytes)
        });
        let bytes = damaged.unwrap_or_else(|| panic!("{}: no place in 200 stores", kind.name));
        assert_eq!(judged(&bytes), (4, kind.rule), "{}", kind.name);
        all_alike(&bytes, &mut Rng::new(u64::from(kind.rule)), &mut tally);
    }
    println!("numbers given, times: {tally:?}");
    assert!(tally[&4] > 1000, "{tally:?}");
}

/// Changes up to three places: a bit, the oldest version, else a field.
fn change_some(bytes: &mut [u8], rng: &mut Rng) {
    for _ in 0..rng.between(1, 3) {
        match rng.below(6) {
            0 => tamper::flip_bit(bytes, rng),
            1 => {
                let version = rng.between(0, store::header(bytes).last() + 1);
                SECOND.oldest.expect("it has").set(bytes, version);
            }
            _ => tamper::set_some_field(bytes, rng),
        }
    }
}

/// Check on pruned stores: each kind of damage by the lowest rule that it breaks,
/// what breaks none, and stores that are nearly sound.
#[test]
fn damage() {
    let mut times = Verdicts::new();
    for seed in 0..rounds(160) {
        let sound = pruned_store(seed);
        let mut rng = Rng::new(seed);
        each_kind_by_its_rule(&sound, &mut rng, &mut times);
        for _ in 0..8 {
            let mut bytes = sound.clone();
            let name = pruned::unsettle(&mut bytes, &mut rng);
            assert_eq!(judged(&bytes), (0, 0), "{name:?} {seed}");
        }
        let change = |store: &mut [u8]| change_some(store, &mut rng);
        nearly_sound(&sound, 60, change, &mut times);
    }
    println!("number and rule, times: {times:?}");
    for (rule, fewest) in (1..=8).zip([100, 100, 100, 100, 100, 100, 5, 100]) {
        assert!(times[&(4, rule)] >= fewest, "{times:?}");
    }
}

/// A prune that is done, and every version from it on by both programs: as it
/// was, by the same pages.
#[test]
fn what_stays() {
    let mut asked = 0;
    for seed in 0..rounds(60) {
        let mut rng = Rng::new(seed);
        let mut bytes = pruned_store(seed);
        if store::header(&bytes).open {
            assert_eq!(calls::abandon(&mut bytes), 0);
        }
        let before = bytes.clone();
        let header = store::header(&bytes);
        let version = rng.between(header.oldest, header.current);
        assert_eq!(calls::prune(&mut bytes, version), 0);
        let pruned = bytes.clone();
        assert_eq!(calls::prune(&mut bytes, version), 0);
        assert_eq!(bytes, pruned);
        for read in [version, rng.between(version, header.current)] {
            let (mut old, mut new) = (vec![0; 4000], vec![0; 4000]);
            let counts = (
                calls::range(&before, 0, HIGHEST_KEY, read, &mut old),
                calls::range(&bytes, 0, HIGHEST_KEY, read, &mut new),
            );
            assert_eq!(counts.0, counts.1);
            assert_eq!(old, new);
            for key in old.chunks(2).take(counts.0 .1 as usize).step_by(11) {
                let (mut old, mut new) = ([0; 7], [0; 7]);
                let way = calls::visits(&before, key[0], read, &mut old);
                assert_eq!(calls::visits(&bytes, key[0], read, &mut new), way);
                assert_eq!(old, new);
                asked += 1;
            }
        }
    }
    println!("{asked} ways");
    assert!(asked > 200);
}

/// Lookups and ranges where nothing but rules 1 and 2 holds, with an oldest
/// version.
#[test]
fn wild_stores() {
    let mut tally = BTreeMap::new();
    for seed in 0..rounds(400) {
        let mut rng = Rng::new(seed);
        let bytes = wild_store_of(&SECOND, &mut rng);
        let header = store::header(&bytes);
        for version in 0..header.last() + 2 {
            let (key, other) = (rng.below(62), rng.below(62));
            for call in [
                Call::Lookup(key, version),
                Call::Range(key.min(other), key.max(other), version, 200),
            ] {
                let number = both(call, &bytes).0.number;
                let below = version < header.oldest;
                assert!(!below || number == 6, "seed {seed}");
                *tally.entry((number, below)).or_insert(0u64) += 1;
            }
        }
    }
    println!("number, below the oldest, times: {tally:?}");
    for met in [(0, false), (4, false), (6, true)] {
        assert!(tally[&met] > 100, "{tally:?}");
    }
}

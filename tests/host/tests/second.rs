//! Edition 2 by both programs: the cases of `tests/reference`, histories, damage,
//! and the new order of refusals; number, results, every byte of the store, every
//! number of the list.

#[path = "common/mod.rs"]
mod beside;

#[path = "../../reference/tests/common/mod.rs"]
mod common;

#[path = "../../reference/tests/cases/second.rs"]
mod second;

use std::collections::BTreeMap;

use beside::calls;
use beside::met::Met;
use beside::stores::{
    all_alike, border_calls, each_kind_by_its_rule, judged, nearly_sound, stores_of, Verdicts,
};
use beside::{both, rounds};
use reference::damage::tamper;
use reference::edition::{Edition, EDITIONS, SECOND};
use reference::engine::Call;
use reference::history::{History, Kind, KINDS};
use reference::rng::Rng;
use reference::samples::second_store;
use reference::wild::wild_store_of;
use reference::{store, walk};

/// Histories from a fresh store: splits, merges, new roots, abandons, returns,
/// and pages that run out.
#[test]
fn histories() {
    let mut met = Met::default();
    for seed in 0..rounds(40) {
        let pages = 6 + 7 * (seed as usize % 9);
        let mut history = History::of(&SECOND, seed, KINDS[seed as usize % 4], pages);
        met.run(&mut history, vec![0xEE; 512 * pages], 400);
    }
    println!("{met:?}");
    for number in [0, 5, 6, 7, 8, 10, 11, 12, 14, 15] {
        assert!(met.given(number) > 0, "{number}: {met:?}");
    }
    met.rebuilt();
}

/// Larger ones that grow to level 3 and shrink again.
#[test]
fn grown_and_shrunk() {
    let mut met = Met::default();
    for seed in 0..rounds(2) {
        let mut history = History::of(&SECOND, seed, Kind::GrowThenShrink, 256);
        met.run(&mut history, vec![0; 512 * 256], 3500);
    }
    println!("{met:?}");
    assert!(
        met.highest_level >= 3 && met.did("root gone") > 0,
        "{met:?}"
    );
}

/// Histories that go on from stores that no history makes.
#[test]
fn histories_from_elsewhere() {
    let mut met = Met::default();
    for seed in 0..rounds(60) {
        met.go_on(second_store(seed), seed, KINDS[seed as usize % 4], 60);
    }
    println!("{met:?}");
}

#[test]
fn every_call_on_sound_and_damaged_stores() {
    let mut tally = BTreeMap::new();
    for seed in 0..rounds(40) {
        let mut rng = Rng::new(seed);
        for bytes in stores_of(&SECOND, seed) {
            // What is any bytes at all begins as an edition 2 store half the time.
            let mut bytes = bytes;
            if bytes.len() >= 5 && rng.once_in(2) {
                bytes[..5].copy_from_slice(b"RCST\x02");
            }
            all_alike(&bytes, &mut rng, &mut tally);
        }
    }
    println!("numbers given, times: {tally:?}");
    for number in [0, 1, 2, 4, 5, 6, 7, 8, 10, 11, 14, 15] {
        assert!(tally.contains_key(&number), "{number}: {tally:?}");
    }
}

/// Check: each kind of damage by the lowest rule that it breaks, and stores that
/// are nearly sound.
#[test]
fn damage() {
    let mut times = Verdicts::new();
    for seed in 0..rounds(160) {
        let sound = second_store(seed);
        assert_eq!(judged(&sound), (0, 0), "seed {seed}");
        let mut rng = Rng::new(seed);
        each_kind_by_its_rule(&sound, &mut rng, &mut times);
        let change = |store: &mut [u8]| tamper::change_some(store, 3, 4, &mut rng);
        nearly_sound(&sound, 60, change, &mut times);
    }
    println!("number and rule, times: {times:?}");
    for rule in [1, 2, 3, 4, 5, 6, 8] {
        assert!(times[&(4, rule)] >= 100, "{times:?}");
    }
}

/// Lookups and ranges where nothing but rules 1 and 2 holds.
#[test]
fn wild_stores() {
    let mut tally = BTreeMap::new();
    for seed in 0..rounds(400) {
        let mut rng = Rng::new(seed);
        let bytes = wild_store_of(&SECOND, &mut rng);
        let last = store::header(&bytes).last();
        for _ in 0..6 {
            let (key, other) = (rng.below(62), rng.below(62));
            let version = rng.below(last + 2);
            let room = rng.below(200) as usize;
            for call in [
                Call::Lookup(key, version),
                Call::Range(key.min(other), key.max(other), version, room),
            ] {
                *tally.entry(both(call, &bytes).0.number).or_insert(0u64) += 1;
            }
        }
    }
    println!("numbers given, times: {tally:?}");
    for number in [0, 4, 6, 14] {
        assert!(tally[&number] > 100, "{number}: {tally:?}");
    }
}

/// Edition bytes 0, 1, 2, 3 and 255 before bytes of every length: 1 below five
/// bytes, then 2, then 3, then 1 by the edition's page size.
#[test]
fn edition_bytes_and_lengths() {
    let mut tally = BTreeMap::new();
    let mut rng = Rng::new(8);
    let lengths = (0..8)
        .chain([255, 256, 1535, 1536, 1537, 2560, 3071, 3072, 3073, 3328])
        .chain([4096 * 256, 4097 * 256, 4096 * 512, 4097 * 512]);
    for length in lengths {
        for edition in [0, 1, 2, 3, 255] {
            for four in [*b"RCST", *b"RCSU", [0; 4]] {
                let mut bytes = vec![0; length];
                let front = [four.as_slice(), &[edition]].concat();
                let count = length.min(5);
                bytes[..count].copy_from_slice(&front[..count]);
                let calls = match length > 4096 {
                    true => vec![Call::Check, Call::Open, Call::Lookup(0, 0)],
                    false => border_calls(&bytes, &mut rng),
                };
                for call in calls {
                    let (answer, after) = both(call, &bytes);
                    *tally.entry(answer.number).or_insert(0u64) += 1;
                    assert_eq!(after, bytes);
                    assert!((1..=4).contains(&answer.number));
                }
            }
        }
    }
    println!("numbers given, times: {tally:?}");
    assert_eq!(tally.len(), 4);
}

/// A sound store with its edition byte exchanged, and one edition's store made
/// fresh as the other's.
#[test]
fn one_edition_for_the_other() {
    let mut rng = Rng::new(9);
    for seed in 0..rounds(60) {
        for edition in EDITIONS {
            let mut bytes = reference::samples::sound_store_of(edition, seed);
            bytes[4] = 3 - bytes[4];
            let (answer, _) = both(Call::Check, &bytes);
            assert!([1, 4].contains(&answer.number), "seed {seed}");
            for call in [Call::Lookup(rng.below(99), 1), Call::Open, Call::Life(1, 9)] {
                both(call, &bytes);
            }
            for call in [Call::Fresh, Call::FreshSecond] {
                let (answer, after) = both(call, &bytes);
                if answer.number == 0 {
                    let second = call == Call::FreshSecond;
                    assert_eq!(Edition::of(&after) == &SECOND, second);
                    assert!(walk::settings(&after, 0).is_empty());
                }
            }
        }
    }
    for length in (0..40 * 256).step_by(128).chain([512 * 4096, 512 * 4097]) {
        let bytes: Vec<u8> = (0..length).map(|_| rng.word() as u8).collect();
        let (answer, _) = both(Call::FreshSecond, &bytes);
        assert_eq!(answer.number, u32::from(!SECOND.length_fits(length)));
    }
}

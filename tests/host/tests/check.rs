//! Check and making fresh, beside the reference: sound, damaged, hostile and
//! any bytes; number, rule and every byte of the store.

mod common;

use common::stores::{each_kind_by_its_rule, judged, nearly_sound, Verdicts};
use common::{both, rounds};
use reference::damage::tamper;
use reference::engine::Call;
use reference::rng::Rng;
use reference::samples::sound_store;

#[test]
fn each_kind_of_damage() {
    let mut verdicts = Verdicts::new();
    for seed in 0..rounds(500) {
        let sound = sound_store(seed);
        assert_eq!(judged(&sound), (0, 0), "seed {seed}");
        each_kind_by_its_rule(&sound, &mut Rng::new(seed), &mut verdicts);
    }
    println!("number and rule, times: {verdicts:?}");
    for rule in 1..=6 {
        assert!(verdicts[&(4, rule)] >= 300, "{verdicts:?}");
    }
}

/// Stores that are nearly sound: a bit or two flipped, a field or two set to a
/// likely number. Most break a rule, some none.
#[test]
fn nearly_sound_stores() {
    let mut verdicts = Verdicts::new();
    for seed in 0..rounds(250) {
        let mut rng = Rng::new(seed);
        let change = |store: &mut [u8]| tamper::change_some(store, 3, 4, &mut rng);
        nearly_sound(&sound_store(seed), 400, change, &mut verdicts);
    }
    println!("number and rule, times: {verdicts:?}");
    for rule in 1..=6 {
        assert!(verdicts.get(&(4, rule)).is_some_and(|&count| count >= 20));
    }
}

#[test]
fn any_bytes_of_any_length() {
    let mut rng = Rng::new(1);
    for _ in 0..rounds(400) {
        let length = match rng.below(4) {
            0 => rng.below(5000) as usize,
            1 => 256 * rng.below(8) as usize,
            2 => 256 * rng.between(6, 40) as usize + rng.below(3) as usize,
            _ => 256 * rng.between(6, 40) as usize,
        };
        let mut store: Vec<u8> = (0..length).map(|_| rng.word() as u8).collect();
        if rng.once_in(2) && length >= 5 {
            store[..4].copy_from_slice(b"RCST");
            store[4] = rng.below(3) as u8;
        }
        judged(&store);
    }
}

#[test]
fn fresh_over_any_bytes() {
    let mut rng = Rng::new(2);
    for length in (0..40 * 256).step_by(128).chain([256 * 4096, 256 * 4097]) {
        let store: Vec<u8> = (0..length).map(|_| rng.word() as u8).collect();
        both(Call::Fresh, &store);
    }
}

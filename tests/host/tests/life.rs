//! The life of a key (2026-01), by both programs.

#[path = "common/mod.rs"]
mod beside;

#[path = "../../reference/tests/common/mod.rs"]
mod common;

#[path = "../../reference/tests/cases/life.rs"]
mod life;

use std::collections::BTreeMap;

use beside::calls;
use beside::stores::{some_keys, stores};
use beside::{both, rounds};
use reference::engine::Call;
use reference::rng::Rng;

#[test]
fn keys_on_bytes_of_every_kind() {
    let mut tally = BTreeMap::new();
    for seed in 0..rounds(60) {
        let mut rng = Rng::new(seed);
        for bytes in stores(seed) {
            for key in some_keys(&bytes, &mut rng) {
                let found = reference::calls::life(&bytes, key, &mut []).1 as usize;
                let room = (3 * found + rng.below(5) as usize).saturating_sub(2);
                let (answer, after) = both(Call::Life(key, room), &bytes);
                assert_eq!(after, bytes);
                *tally.entry(answer.number).or_insert(0u64) += 1;
            }
        }
    }
    println!("numbers given, times: {tally:?}");
    for number in [0, 1, 2, 4, 5, 14] {
        assert!(tally.contains_key(&number), "{number}: {tally:?}");
    }
}

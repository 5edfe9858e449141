//! Keys of the test bench (2026-06), by both programs.

#[path = "common/mod.rs"]
mod beside;

#[path = "../../reference/tests/common/mod.rs"]
mod common;

#[path = "../../reference/tests/cases/bench_keys.rs"]
mod bench_keys;

use std::collections::BTreeMap;

use beside::calls;
use beside::stores::{some_keys, stores};
use beside::{both, rounds};
use reference::engine::Call;
use reference::rng::Rng;

#[test]
fn inserts_and_deletes_on_bytes_of_every_kind() {
    let mut tally = BTreeMap::new();
    for seed in 0..rounds(60) {
        let mut rng = Rng::new(seed);
        for bytes in stores(seed) {
            for key in some_keys(&bytes, &mut rng) {
                let update = match rng.once_in(2) {
                    true => Call::Insert(key, rng.word()),
                    false => Call::Delete(key),
                };
                let (answer, after) = both(update, &bytes);
                assert!(answer.number == 0 || after == bytes);
                *tally.entry(answer.number).or_insert(0u64) += 1;
            }
        }
    }
    println!("numbers given, times: {tally:?}");
    for number in [0, 1, 2, 4, 5, 7, 10, 11] {
        assert!(tally.contains_key(&number), "{number}: {tally:?}");
    }
}

//! What differs between two versions (2026-03), by both programs.

#[path = "common/mod.rs"]
mod beside;

#[path = "../../reference/tests/common/mod.rs"]
mod common;

#[path = "../../reference/tests/cases/difference.rs"]
mod difference;

use std::collections::BTreeMap;

use beside::calls;
use beside::stores::{some_versions, stores};
use beside::{both, rounds};
use reference::engine::Call;
use reference::rng::Rng;

#[test]
fn any_two_versions_on_bytes_of_every_kind() {
    let mut tally = BTreeMap::new();
    for seed in 0..rounds(60) {
        let mut rng = Rng::new(seed);
        for bytes in stores(seed) {
            let versions = some_versions(&bytes, &mut rng);
            for old in &versions {
                let new = *rng.pick(&versions).unwrap_or(&0);
                let found = reference::calls::difference(&bytes, *old, new, &mut []).1 as usize;
                let room = (4 * found + rng.below(6) as usize).saturating_sub(2);
                let (answer, after) = both(Call::Difference(*old, new, room), &bytes);
                assert_eq!(after, bytes);
                *tally.entry(answer.number).or_insert(0u64) += 1;
            }
        }
    }
    println!("numbers given, times: {tally:?}");
    for number in [0, 1, 2, 4, 6, 14] {
        assert!(tally.contains_key(&number), "{number}: {tally:?}");
    }
}

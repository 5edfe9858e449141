//! An empty release is no release (2026-05), by both programs.

#[path = "common/mod.rs"]
mod beside;

#[path = "../../reference/tests/common/mod.rs"]
mod common;

#[path = "../../reference/tests/cases/empty_release.rs"]
mod empty_release;

use std::collections::BTreeMap;

use beside::stores::stores;
use beside::{both, calls, rounds};
use reference::engine::Call;
use reference::rng::Rng;
use reference::{store, unjudged, walk};

/// Undoes what the open update did to its settings; the pages keep what was
/// done to them.
fn undo(bytes: &mut [u8]) {
    let header = store::header(bytes);
    let (old, new) = (
        walk::settings(bytes, header.current),
        walk::settings(bytes, header.last()),
    );
    for (key, value) in &new {
        if old.get(key) != Some(value) {
            unjudged::delete(bytes, *key);
        }
    }
    for (key, value) in &old {
        if new.get(key) != Some(value) {
            unjudged::raw_insert(bytes, *key, *value);
        }
    }
}

#[test]
fn commits_on_bytes_of_every_kind() {
    let mut tally = BTreeMap::new();
    for seed in 0..rounds(200) {
        let mut rng = Rng::new(seed);
        for (index, mut bytes) in stores(seed).into_iter().enumerate() {
            let sound = index == 0;
            if sound && rng.once_in(3) {
                unjudged::open(&mut bytes);
            }
            if sound && rng.once_in(2) && store::header(&bytes).open {
                undo(&mut bytes);
            }
            let (answer, after) = both(Call::Commit, &bytes);
            assert!(answer.number == 0 || after == bytes);
            *tally.entry(answer.number).or_insert(0u64) += 1;
        }
    }
    println!("numbers given, times: {tally:?}");
    for number in [0, 1, 2, 4, 7, 15] {
        assert!(tally.contains_key(&number), "{number}: {tally:?}");
    }
}

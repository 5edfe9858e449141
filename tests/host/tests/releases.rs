//! 2026-05, an empty release is no release: a commit gives 15, changes nothing
//! and stays open, exactly when the open version's settings equal the current
//! version's, key for key. By both programs, every call compared.

mod common;

use std::collections::BTreeSet;

use common::{calls, rounds};
use reference::foreign::raise_current;
use reference::layout::HIGHEST_VERSION;
use reference::rng::Rng;
use reference::samples::sound_store;
use reference::{store, unjudged};

const NOTHING_CHANGED: u32 = 15;
const HIGHEST_KEY: u32 = 16_777_215;

/// A store whose version 1 has the keys 1 to `keys`, with version 2 open.
fn opened(pages: usize, keys: u32) -> Vec<u8> {
    let mut bytes = vec![0x5A; pages * 256];
    assert_eq!(calls::fresh(&mut bytes), 0);
    assert_eq!(calls::open(&mut bytes), 0);
    for key in 1..=keys {
        assert_eq!(calls::insert(&mut bytes, key, value(key)), 0);
    }
    assert_eq!(calls::commit(&mut bytes), 0);
    assert_eq!(calls::open(&mut bytes), 0);
    bytes
}

fn value(key: u32) -> u32 {
    key + 100
}

/// The commit gives 15, and every byte stays: the update is open as before.
fn is_empty(bytes: &mut [u8]) {
    let before = bytes.to_vec();
    assert_eq!(calls::commit(bytes), NOTHING_CHANGED);
    assert!(bytes == before);
}

#[test]
fn nothing_done() {
    let mut bytes = vec![0; 6 * 256];
    assert_eq!(calls::fresh(&mut bytes), 0);
    assert_eq!(calls::open(&mut bytes), 0);
    is_empty(&mut bytes);
    is_empty(&mut opened(16, 20));
    is_empty(&mut opened(64, 300));
}

/// Seven is smaller: with no update open the settings "equal" too.
#[test]
fn seven_before_fifteen() {
    let mut bytes = opened(16, 20);
    assert_eq!(calls::abandon(&mut bytes), 0);
    assert_eq!(calls::commit(&mut bytes), 7);
}

#[test]
fn an_insert_and_its_delete() {
    for (pages, keys) in [(16, 1), (16, 19), (16, 20), (64, 300)] {
        for key in [0, keys / 2 + 1_000, HIGHEST_KEY / 2] {
            let mut bytes = opened(pages, keys);
            assert_eq!(calls::insert(&mut bytes, key, 7), 0);
            assert_eq!(calls::delete(&mut bytes, key), 0);
            is_empty(&mut bytes);
        }
    }
}

/// A full leaf is copied and split by the pair of calls.
#[test]
fn a_delete_and_an_insert() {
    for keys in [1, 19, 20] {
        for key in [1, keys] {
            let mut same = opened(16, keys);
            assert_eq!(calls::delete(&mut same, key), 0);
            let mut other = same.clone();
            assert_eq!(calls::insert(&mut same, key, value(key)), 0);
            is_empty(&mut same);
            assert_eq!(calls::insert(&mut other, key, value(key) + 1), 0);
            assert_eq!(calls::commit(&mut other), 0);
            assert_eq!(calls::lookup(&other, key, 1), (0, true, value(key)));
            assert_eq!(calls::lookup(&other, key, 2), (0, true, value(key) + 1));
        }
    }
}

/// As many settings, and another key: a release.
#[test]
fn another_key_with_the_same_value() {
    let mut bytes = opened(16, 20);
    assert_eq!(calls::delete(&mut bytes, 7), 0);
    assert_eq!(calls::insert(&mut bytes, 21, value(7)), 0);
    assert_eq!(calls::commit(&mut bytes), 0);
}

/// Pages split and merge on the way there and back.
#[test]
fn twenty_one_inserts_and_their_deletes() {
    for keys in [0, 20] {
        let mut bytes = match keys {
            0 => {
                let mut bytes = vec![0; 16 * 256];
                assert_eq!(calls::fresh(&mut bytes), 0);
                assert_eq!(calls::open(&mut bytes), 0);
                bytes
            }
            _ => opened(24, keys),
        };
        for key in 101..=121 {
            assert_eq!(calls::insert(&mut bytes, key, key), 0);
        }
        for key in 101..=121 {
            assert_ne!(calls::commit(&mut bytes.clone()), NOTHING_CHANGED);
            assert_eq!(calls::delete(&mut bytes, key), 0);
        }
        is_empty(&mut bytes);
    }
}

#[test]
fn fifteen_then_a_change_then_done() {
    let mut bytes = opened(16, 20);
    is_empty(&mut bytes);
    is_empty(&mut bytes);
    assert_eq!(calls::insert(&mut bytes, 30, 7), 0);
    assert_eq!(calls::commit(&mut bytes), 0);
    assert_eq!(calls::lookup(&bytes, 30, 2), (0, true, 7));
    assert_eq!(calls::commit(&mut bytes), 7);
}

#[test]
fn fifteen_then_abandon_to_the_byte() {
    let mut bytes = opened(16, 20);
    assert_eq!(calls::abandon(&mut bytes), 0);
    let before = bytes.clone();
    assert_eq!(calls::open(&mut bytes), 0);
    assert_eq!(calls::delete(&mut bytes, 1), 0);
    assert_eq!(calls::insert(&mut bytes, 1, value(1)), 0);
    is_empty(&mut bytes);
    assert_eq!(calls::abandon(&mut bytes), 0);
    assert!(bytes == before);
}

/// Back to the settings of a version that is not the current one: a release.
#[test]
fn the_settings_of_an_older_version_are_no_reason() {
    let mut bytes = opened(32, 20);
    assert_eq!(calls::insert(&mut bytes, 30, 7), 0);
    assert_eq!(calls::commit(&mut bytes), 0);
    assert_eq!(calls::open(&mut bytes), 0);
    assert_eq!(calls::delete(&mut bytes, 30), 0);
    assert_eq!(calls::commit(&mut bytes), 0);
    assert_eq!(store::header(&bytes).current, 3);
}

/// Empty versions from before 2026-05 stay sound, and count as the current one.
#[test]
fn behind_a_million_empty_versions() {
    for at in [0, 2, HIGHEST_VERSION - 2, HIGHEST_VERSION - 1] {
        let mut bytes = opened(16, 20);
        assert_eq!(calls::abandon(&mut bytes), 0);
        let current = store::header(&bytes).current.max(at);
        raise_current(&mut bytes, current);
        assert_eq!(calls::open(&mut bytes), 0);
        is_empty(&mut bytes);
        assert_eq!(calls::delete(&mut bytes, 20), 0);
        assert_eq!(calls::commit(&mut bytes), 0);
        assert_eq!(store::header(&bytes).current, current + 1);
        let next = calls::open(&mut bytes);
        assert_eq!(next, if current + 1 == HIGHEST_VERSION { 9 } else { 0 });
    }
}

/// Changes at random, in stores of every kind: after each both programs are asked
/// whether a commit would be empty; and once all are undone it is.
#[test]
fn changes_and_their_undoing() {
    let (mut empty, mut done, mut undone) = (0, 0, 0);
    for seed in 0..rounds(60) {
        let mut rng = Rng::new(seed);
        let mut bytes = sound_store(seed);
        if store::header(&bytes).open {
            assert_eq!(calls::abandon(&mut bytes), 0);
        }
        if calls::open(&mut bytes) != 0 {
            continue;
        }
        let mut touched = BTreeSet::new();
        for _ in 0..20 {
            let key = match touched.iter().next() {
                Some(&key) if rng.below(2) == 0 => key,
                _ => rng.below(400),
            };
            change(&mut bytes, key, &mut rng);
            touched.insert(key);
            match calls::commit(&mut bytes.clone()) {
                0 => done += 1,
                number => {
                    assert_eq!(number, NOTHING_CHANGED, "seed {seed}");
                    empty += 1;
                }
            }
        }
        if touched.into_iter().all(|key| undo(&mut bytes, key)) {
            is_empty(&mut bytes);
            undone += 1;
        }
    }
    println!("{done} releases, {empty} empty; {undone} updates undone");
    assert!(done > 100 && empty > 20 && undone > 10);
}

/// The key goes, or comes with its value of before or with another.
fn change(bytes: &mut [u8], key: u32, rng: &mut Rng) {
    if calls::delete(bytes, key) != 11 {
        return;
    }
    let value = match (before(bytes, key), rng.below(2)) {
        (Some(value), 0) => value,
        _ => rng.word(),
    };
    calls::insert(bytes, key, value);
}

/// Makes the key what it was in the current version; false if pages ran out.
fn undo(bytes: &mut [u8], key: u32) -> bool {
    let deleted = matches!(calls::delete(bytes, key), 0 | 11);
    match before(bytes, key) {
        Some(value) if deleted => calls::insert(bytes, key, value) == 0,
        _ => deleted,
    }
}

fn before(bytes: &[u8], key: u32) -> Option<u32> {
    let current = store::header(bytes).current;
    let (_, found, value) = unjudged::lookup(bytes, key, current);
    found.then_some(value)
}

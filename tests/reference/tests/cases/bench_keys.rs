//! Keys of the test bench (2026-06): insert refuses them, all else takes them.

use crate::calls;
use crate::common::*;
use reference::calls::raw_insert;
use reference::layout::{FIRST_BENCH_KEY, HIGHEST_KEY};

const BENCH_KEYS: [u32; 5] = [16_776_960, 16_776_961, 16_777_000, 16_777_214, 16_777_215];

/// A store from before: keys 16,776,940 to 16,776,959 and the bench keys, in
/// version 1, with more keys than a page holds.
fn shipped() -> Vec<u8> {
    let mut bytes = fresh(16);
    open(&mut bytes);
    for key in (16_776_940..16_776_960).chain(BENCH_KEYS) {
        assert_eq!(raw_insert(&mut bytes, key, value_of(key)), 0);
    }
    commit(&mut bytes);
    assert_sound(&bytes);
    bytes
}

#[test]
fn the_last_key_that_goes_in_and_the_first_that_does_not() {
    assert_eq!((FIRST_BENCH_KEY, HIGHEST_KEY), (16_776_960, 16_777_215));
    let mut bytes = fresh(6);
    open(&mut bytes);
    assert_eq!(calls::insert(&mut bytes, 16_776_959, 7), 0);
    let before = bytes.clone();
    for key in BENCH_KEYS.into_iter().chain([16_777_216, u32::MAX]) {
        assert_eq!(calls::insert(&mut bytes, key, 7), 5);
    }
    assert_eq!(bytes, before);
    assert_eq!(calls::lookup(&bytes, 16_776_959, 1), (0, true, 7));
    assert_eq!(calls::lookup(&bytes, 16_776_960, 1), (0, false, 0));
    // A delete takes the key, and finds it absent.
    assert_eq!(calls::delete(&mut bytes, 16_776_960), 11);
    assert_eq!(calls::delete(&mut bytes, 16_777_216), 5);
    assert_eq!(calls::delete(&mut bytes, 16_776_959), 0);
}

#[test]
fn reading_06_1_five_before_seven_and_ten() {
    let mut bytes = shipped();
    assert_eq!(calls::insert(&mut bytes, 16_776_960, 1), 5);
    assert_eq!(calls::insert(&mut bytes, 16_776_959, 1), 7);
    open(&mut bytes);
    assert_eq!(calls::insert(&mut bytes, 16_776_960, 1), 5);
    assert_eq!(calls::insert(&mut bytes, 16_776_959, 1), 10);
}

#[test]
fn five_before_twelve_and_behind_four() {
    let mut bytes = fresh(6);
    open(&mut bytes);
    insert_all(&mut bytes, 1..=20);
    assert_eq!(calls::insert(&mut bytes, 21, 1), 12);
    assert_eq!(calls::insert(&mut bytes, 16_776_960, 1), 5);
    bytes[200] = 1;
    assert_eq!(calls::insert(&mut bytes, 16_776_960, 1), 4);
}

#[test]
fn a_shipped_store_is_read() {
    let bytes = shipped();
    for key in BENCH_KEYS {
        assert_eq!(calls::lookup(&bytes, key, 1), (0, true, value_of(key)));
        assert_eq!(calls::lookup(&bytes, key, 0), (0, false, 0));
    }
    let mut list = [3; 13];
    let ranged = calls::range(&bytes, 16_776_959, HIGHEST_KEY, 1, &mut list);
    assert_eq!(ranged, (0, 6));
    let keys: Vec<u32> = list.chunks_exact(2).map(|setting| setting[0]).collect();
    assert_eq!(keys[0], 16_776_959);
    assert_eq!(keys[1..], BENCH_KEYS);
    assert_eq!(list[12], 3);
    let mut list = [3; 12];
    let ranged = calls::range(&bytes, 16_776_960, HIGHEST_KEY, 1, &mut list);
    assert_eq!(ranged, (0, 5));
    let mut pages = [0; 7];
    assert_eq!(calls::visits(&bytes, HIGHEST_KEY, 1, &mut pages).0, 0);
}

#[test]
fn a_shipped_store_is_cleaned() {
    let mut bytes = shipped();
    let before = bytes.clone();
    open(&mut bytes);
    delete_all(&mut bytes, BENCH_KEYS);
    let last = 16_777_215;
    assert_eq!(calls::range(&bytes, 16_776_960, last, 2, &mut []), (0, 0));
    assert_eq!(calls::delete(&mut bytes, 16_777_000), 11);
    // What was deleted does not come back.
    assert_eq!(calls::insert(&mut bytes, 16_777_000, 1), 5);
    let cleaned = bytes.clone();
    abandon(&mut bytes);
    assert_eq!(bytes, before);
    let mut bytes = cleaned;
    commit(&mut bytes);
    assert_eq!(calls::lookup(&bytes, last, 2), (0, false, 0));
    assert_eq!(calls::lookup(&bytes, last, 1), (0, true, value_of(last)));
}

/// Bench keys that came in with an update which is still open.
#[test]
fn abandoned_to_the_byte() {
    let mut bytes = shipped();
    let before = bytes.clone();
    open(&mut bytes);
    delete_all(&mut bytes, [16_777_000, 16_776_950]);
    for key in 16_777_001..16_777_040 {
        assert_eq!(raw_insert(&mut bytes, key, key), 0);
    }
    assert_sound(&bytes);
    assert_eq!(calls::insert(&mut bytes, 16_777_050, 1), 5);
    abandon(&mut bytes);
    assert_eq!(bytes, before);
}

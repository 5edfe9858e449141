//! 2026-06, "keep the bench keys out", by hand: the numbers are written here and
//! not taken from the other program, whose raw insert makes the stores that were
//! shipped with bench keys. What cleans such a store is made by both.

mod common;

use common::both;
use reference::calls::raw_insert;
use reference::engine::Call;

const FIRST: u32 = 16_776_960;
const HIGHEST: u32 = 16_777_215;

/// A fresh store with an update open.
fn opened(pages: usize) -> Vec<u8> {
    let mut store = vec![0xEE; 256 * pages];
    assert_eq!(host::fresh(&mut store), 0);
    assert_eq!(host::open(&mut store), 0);
    store
}

/// Inserts that give 5 and leave every byte.
fn all_refused(store: &mut [u8], keys: impl Iterator<Item = u32>) {
    let before = store.to_vec();
    for key in keys {
        assert_eq!(host::insert(store, key, 1), 5, "insert {key}");
        assert_eq!(store, before, "insert {key}");
    }
}

/// Version 1 has keys on both sides of the border, version 2 more of them.
fn shipped() -> Vec<u8> {
    let mut store = opened(64);
    for key in (0..40)
        .chain([FIRST - 2, FIRST - 1])
        .chain(FIRST..FIRST + 30)
    {
        assert_eq!(raw_insert(&mut store, key, key / 7), 0);
    }
    assert_eq!(host::commit(&mut store), 0);
    assert_eq!(host::open(&mut store), 0);
    for key in HIGHEST - 19..=HIGHEST {
        assert_eq!(raw_insert(&mut store, key, key / 7), 0);
    }
    assert_eq!(host::commit(&mut store), 0);
    assert_eq!(host::check(&store), (0, 0));
    store
}

fn bench_keys(version: u32) -> Vec<u32> {
    match version {
        1 => (FIRST..FIRST + 30).collect(),
        _ => (FIRST..FIRST + 30).chain(HIGHEST - 19..=HIGHEST).collect(),
    }
}

/// What a range over all bench keys is to write.
fn listed(keys: &[u32]) -> Vec<u32> {
    keys.iter().flat_map(|key| [*key, key / 7]).collect()
}

fn ranged(store: &[u8], version: u32) -> Vec<u32> {
    let mut list = vec![7; 200];
    let (number, count) = host::range(store, FIRST, HIGHEST, version, &mut list);
    assert_eq!(number, 0);
    assert!(list[2 * count..].iter().all(|number| *number == 7));
    list.truncate(2 * count);
    list
}

#[test]
fn the_last_key_that_goes_in_and_all_that_do_not() {
    let mut store = opened(6);
    assert_eq!(host::insert(&mut store, FIRST - 1, 8), 0);
    assert_eq!(host::lookup(&store, FIRST - 1, 1), (0, true, 8));
    all_refused(&mut store, FIRST..=HIGHEST);
    all_refused(&mut store, [HIGHEST + 1, u32::MAX].into_iter());
    assert_eq!(host::commit(&mut store), 0);
    assert_eq!(host::check(&store), (0, 0));
}

#[test]
fn five_comes_before_seven() {
    let mut store = opened(6);
    assert_eq!(host::abandon(&mut store), 0);
    assert_eq!(host::insert(&mut store, FIRST - 1, 8), 7);
    all_refused(&mut store, FIRST..=HIGHEST);
}

#[test]
fn five_comes_before_ten() {
    let mut store = shipped();
    assert_eq!(host::open(&mut store), 0);
    assert_eq!(host::insert(&mut store, FIRST - 1, 8), 10);
    all_refused(&mut store, bench_keys(2).into_iter());
}

/// Twenty keys fill the one leaf page of six pages.
#[test]
fn five_comes_before_twelve() {
    let mut store = opened(6);
    for key in 0..20 {
        assert_eq!(host::insert(&mut store, key, key), 0);
    }
    assert_eq!(host::insert(&mut store, FIRST - 1, 8), 12);
    all_refused(&mut store, FIRST..=HIGHEST);
}

#[test]
fn four_comes_before_five() {
    let mut store = opened(6);
    store[12] = 1;
    assert_eq!(host::insert(&mut store, FIRST, 8), 4);
}

#[test]
fn lookup_range_and_delete_still_take_them() {
    let mut store = opened(6);
    assert_eq!(host::insert(&mut store, FIRST - 1, 8), 0);
    let before = store.clone();
    for key in FIRST..=HIGHEST {
        assert_eq!(host::lookup(&store, key, 1), (0, false, 0));
        assert_eq!(host::delete(&mut store, key), 11);
    }
    assert_eq!(store, before);
    assert_eq!(ranged(&store, 1), []);
    assert_eq!(host::lookup(&store, HIGHEST + 1, 1), (5, false, 0));
    assert_eq!(host::delete(&mut store, HIGHEST + 1), 5);
    assert_eq!(host::range(&store, FIRST, HIGHEST + 1, 1, &mut []), (5, 0));
}

#[test]
fn a_shipped_store_is_read() {
    let store = shipped();
    for version in 1..=2 {
        for key in bench_keys(version) {
            assert_eq!(host::lookup(&store, key, version), (0, true, key / 7));
        }
        assert_eq!(ranged(&store, version), listed(&bench_keys(version)));
    }
    assert_eq!(host::lookup(&store, HIGHEST, 1), (0, false, 0));
    assert_eq!(
        host::range(&store, FIRST, HIGHEST, 2, &mut [0; 99]),
        (14, 50)
    );
}

/// Every delete by both programs, byte by byte; a bench key that is gone stays
/// out; what was committed stays as it was.
#[test]
fn a_shipped_store_is_cleaned() {
    let mut store = shipped();
    assert_eq!(host::open(&mut store), 0);
    for key in bench_keys(2) {
        let (answer, after) = both(Call::Delete(key), &store);
        assert_eq!(answer.number, 0, "delete {key}");
        store = after;
        assert_eq!(host::check(&store), (0, 0));
        assert_eq!(host::lookup(&store, key, 3), (0, false, 0));
        assert_eq!(host::insert(&mut store, key, 1), 5);
    }
    assert_eq!(host::commit(&mut store), 0);
    assert_eq!(host::check(&store), (0, 0));
    assert_eq!(ranged(&store, 3), []);
    for version in 1..=2 {
        assert_eq!(ranged(&store, version), listed(&bench_keys(version)));
    }
    assert_eq!(
        host::lookup(&store, FIRST - 1, 3),
        (0, true, (FIRST - 1) / 7)
    );
}

#[test]
fn a_cleaning_is_abandoned_to_the_byte() {
    let mut store = shipped();
    let before = store.clone();
    assert_eq!(host::open(&mut store), 0);
    for key in bench_keys(2) {
        assert_eq!(host::delete(&mut store, key), 0);
    }
    assert_ne!(store, before);
    assert_eq!(host::abandon(&mut store), 0);
    assert_eq!(store, before);
}

/// Bench keys that an open update was lent with are abandoned as all else.
#[test]
fn bench_keys_in_an_open_update_are_abandoned_to_the_byte() {
    let before = shipped();
    let mut store = before.clone();
    assert_eq!(host::open(&mut store), 0);
    for key in FIRST + 30..FIRST + 60 {
        assert_eq!(raw_insert(&mut store, key, key), 0);
    }
    assert_eq!(host::check(&store), (0, 0));
    assert_eq!(host::lookup(&store, FIRST + 59, 3), (0, true, FIRST + 59));
    assert_eq!(host::delete(&mut store, FIRST + 59), 0);
    assert_eq!(host::abandon(&mut store), 0);
    assert_eq!(store, before);
}

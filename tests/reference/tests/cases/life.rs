//! The life of a key (2026-01).

use crate::calls;
use crate::common::*;
use reference::calls::raw_insert;
use reference::foreign::raise_current;
use reference::history::{self, KINDS};
use reference::layout::{ALIVE, FIRST_BENCH_KEY, HIGHEST_KEY, HIGHEST_VERSION};
use reference::rng::Rng;
use reference::samples::sound_store;
use reference::{life as program, store, walk};

/// The stretches, by a list that holds just as many.
fn life(bytes: &[u8], key: u32) -> Vec<[u32; 3]> {
    let (_, count) = calls::life(bytes, key, &mut []);
    let mut list = vec![0; 3 * count as usize];
    assert_eq!(calls::life(bytes, key, &mut list), (0, count));
    let rows = list.chunks_exact(3);
    rows.map(|row| [row[0], row[1], row[2]]).collect()
}

/// What is done to key 40 in one update: the values it is given, one after the
/// other, and 0 to delete it. Another key changes in each, so that no update is
/// empty.
fn update(bytes: &mut [u8], values: &[u32]) {
    open(bytes);
    in_open_update(bytes, values);
    let version = store::header(bytes).last();
    assert_eq!(calls::insert(bytes, 1000 + version, 1), 0);
    commit(bytes);
}

fn in_open_update(bytes: &mut [u8], values: &[u32]) {
    for value in values {
        match value {
            0 => assert_eq!(calls::delete(bytes, 40), 0),
            _ => assert_eq!(calls::insert(bytes, 40, *value), 0),
        }
    }
}

fn lived(updates: &[&[u32]]) -> Vec<u8> {
    let mut bytes = fresh(64);
    for values in updates {
        update(&mut bytes, values);
    }
    bytes
}

#[test]
fn a_key_that_never_lived() {
    let bytes = lived(&[&[], &[]]);
    let mut list = [7; 3];
    assert_eq!(calls::life(&bytes, 40, &mut list), (0, 0));
    assert_eq!(list, [7; 3]);
    // Reading 01.3: a count of 0 never gives 14.
    assert_eq!(calls::life(&bytes, 40, &mut []), (0, 0));
    assert_eq!(calls::life(&fresh(6), 40, &mut []), (0, 0));
}

#[test]
fn from_its_first_version_to_the_first_behind() {
    assert_eq!(life(&lived(&[&[7]]), 40), [[1, ALIVE, 7]]);
    assert_eq!(life(&lived(&[&[], &[7], &[]]), 40), [[2, ALIVE, 7]]);
    assert_eq!(life(&lived(&[&[7], &[], &[0], &[]]), 40), [[1, 3, 7]]);
}

#[test]
fn unequal_values_are_not_joined() {
    let bytes = lived(&[&[7], &[0, 8], &[], &[0, 7]]);
    assert_eq!(life(&bytes, 40), [[1, 2, 7], [2, 4, 8], [4, ALIVE, 7]]);
}

#[test]
fn deleted_and_inserted_again_with_the_same_value_in_one_update() {
    assert_eq!(life(&lived(&[&[7], &[0, 7], &[]]), 40), [[1, ALIVE, 7]]);
    let twice = lived(&[&[7], &[0, 9, 0, 7], &[0, 7, 0]]);
    assert_eq!(life(&twice, 40), [[1, 3, 7]]);
}

#[test]
fn reading_01_2_absent_for_one_version_and_back() {
    let bytes = lived(&[&[7], &[0], &[7]]);
    assert_eq!(life(&bytes, 40), [[1, 2, 7], [3, ALIVE, 7]]);
}

#[test]
fn reading_01_1_an_open_update_is_not_shown() {
    let mut bytes = lived(&[&[7], &[0, 8]]);
    let expected = [[1, 2, 7], [2, ALIVE, 8]];
    let before = bytes.clone();
    for values in [&[][..], &[0], &[0, 9], &[0, 8]] {
        open(&mut bytes);
        assert_eq!(life(&bytes, 40), expected);
        in_open_update(&mut bytes, values);
        assert_eq!(life(&bytes, 40), expected, "{values:?}");
        abandon(&mut bytes);
        assert_eq!(bytes, before);
    }
    // A key that only the open update knows.
    open(&mut bytes);
    insert_all(&mut bytes, [5]);
    assert_eq!(life(&bytes, 5), [] as [[u32; 3]; 0]);
    commit(&mut bytes);
    assert_eq!(life(&bytes, 5), [[3, ALIVE, 50]]);
}

#[test]
fn value_0_and_keys_at_the_ends() {
    let mut bytes = fresh(6);
    open(&mut bytes);
    for key in [0, 16_776_959] {
        assert_eq!(calls::insert(&mut bytes, key, 0), 0);
    }
    for key in [FIRST_BENCH_KEY, HIGHEST_KEY] {
        assert_eq!(raw_insert(&mut bytes, key, u32::MAX), 0);
    }
    commit(&mut bytes);
    for (key, value) in [
        (0, 0),
        (16_776_959, 0),
        (FIRST_BENCH_KEY, u32::MAX),
        (HIGHEST_KEY, u32::MAX),
    ] {
        assert_eq!(life(&bytes, key), [[1, ALIVE, value]]);
    }
}

#[test]
fn a_list_one_number_short() {
    let bytes = lived(&[&[7], &[0], &[8]]);
    let mut list = [9; 5];
    assert_eq!(calls::life(&bytes, 40, &mut list), (14, 2));
    assert_eq!(list, [9; 5]);
    assert_eq!(calls::life(&bytes, 40, &mut []), (14, 2));
    let mut list = [9; 8];
    assert_eq!(calls::life(&bytes, 40, &mut list), (0, 2));
    assert_eq!(list, [1, 2, 7, 3, ALIVE, 8, 9, 9]);
}

#[test]
fn refusals_in_order() {
    let bytes = lived(&[&[7]]);
    let mut list = [7; 2];
    let mut refused = |bytes: &[u8], key| {
        let answer = calls::life(bytes, key, &mut list);
        assert_eq!((answer.1, list), (0, [7; 2]));
        answer.0
    };
    assert_eq!(refused(&bytes, HIGHEST_KEY + 1), 5);
    assert_eq!(refused(&bytes, u32::MAX), 5);
    assert_eq!(refused(&bytes[..5 * 256], u32::MAX), 1);
    for (at, number) in [(1, 2), (4, 3), (90, 4), (63 * 256, 4)] {
        let mut damaged = bytes.clone();
        damaged[at] ^= 0x40;
        assert_eq!(refused(&damaged, u32::MAX), number);
        assert_eq!(refused(&damaged, 40), number);
    }
}

/// "Splits cut an item into several entries": here those around key 40 change
/// until its page is copied, again and again.
#[test]
fn an_item_cut_into_several_entries_is_one_stretch() {
    let mut bytes = fresh(200);
    open(&mut bytes);
    insert_all(&mut bytes, 20..60);
    commit(&mut bytes);
    for round in 1..30 {
        open(&mut bytes);
        for key in (36..46).filter(|key| *key != 40) {
            assert_eq!(calls::delete(&mut bytes, key), 0);
            assert_eq!(calls::insert(&mut bytes, key, round), 0);
        }
        commit(&mut bytes);
    }
    let entries = entries_of(&bytes, 40);
    println!("key 40 has {entries} entries");
    assert!(entries > 10, "{entries}");
    assert_eq!(life(&bytes, 40), [[1, ALIVE, 400]]);
    assert_eq!(life(&bytes, 41).len(), 30);
}

fn entries_of(bytes: &[u8], key: u32) -> usize {
    let leaves = store::page_numbers(bytes).map(|number| store::page(bytes, number));
    let entries = leaves
        .filter(|page| page.level == 1)
        .flat_map(|page| page.entries);
    entries.filter(|entry| entry.key == key).count()
}

#[test]
fn a_million_versions() {
    let mut bytes = lived(&[&[7], &[0, 8]]);
    raise_current(&mut bytes, HIGHEST_VERSION - 1);
    assert_eq!(life(&bytes, 40), [[1, 2, 7], [2, ALIVE, 8]]);
    open(&mut bytes);
    delete_all(&mut bytes, [40]);
    assert_eq!(life(&bytes, 40), [[1, 2, 7], [2, ALIVE, 8]]);
    commit(&mut bytes);
    assert_eq!(life(&bytes, 40), [[1, 2, 7], [2, HIGHEST_VERSION, 8]]);
}

/// Every key that has an entry anywhere, asked version by version.
fn compare_literally(bytes: &[u8], met: &mut [u64; 3]) {
    let leaves = store::page_numbers(bytes).map(|number| store::page(bytes, number));
    let entries = leaves
        .filter(|page| page.level == 1)
        .flat_map(|page| page.entries);
    let mut keys: Vec<u32> = entries.map(|entry| entry.key).collect();
    keys.sort_unstable();
    keys.dedup();
    for key in keys.into_iter().chain([0, HIGHEST_KEY]) {
        let literal = program::literally(bytes, key);
        let mut list = vec![0; 3 * literal.len()];
        calls::life(bytes, key, &mut list);
        assert_eq!(list, literal.concat(), "key {key}");
        met[literal.len().min(2)] += 1;
    }
}

#[test]
fn version_by_version() {
    let mut met = [0; 3];
    for seed in 0..rounds(30) {
        let (_, bytes) = history::calls(seed, KINDS[seed as usize % 4], 40, 200);
        compare_literally(&bytes, &mut met);
        let foreign = sound_store(seed);
        if store::header(&foreign).last() < 5000 {
            compare_literally(&foreign, &mut met);
        }
    }
    println!("keys of no, one, several stretches: {met:?}");
    assert!(met.iter().all(|count| *count > 20), "{met:?}");
}

/// The last version at which a stretch holds, and the first at which it does
/// not.
#[test]
fn stretches_are_where_lookups_find_the_value() {
    for seed in 0..rounds(30) {
        let mut rng = Rng::new(seed);
        let (_, bytes) = history::calls(seed, KINDS[2], 40, 200);
        let current = store::header(&bytes).current;
        let settings = walk::settings(&bytes, rng.between(0, current));
        for (key, _) in settings.into_iter().take(8) {
            let stretches = life(&bytes, key);
            let covers = |version| {
                let mut covering = stretches.iter();
                covering
                    .find(|s| s[0] <= version && version < s[1])
                    .map(|s| s[2])
            };
            for version in (0..=current).step_by(1 + current as usize / 50) {
                assert_eq!(covers(version), walk::lookup(&bytes, key, version));
            }
        }
    }
}

//! What differs between two versions (2026-03).

use crate::calls;
use crate::common::*;
use reference::calls::raw_insert;
use reference::history::{self, KINDS};
use reference::layout::HIGHEST_KEY;
use reference::model::{Model, Settings};
use reference::rng::Rng;
use reference::store;

/// The differences, by a list that holds just as many.
fn differing(bytes: &[u8], old: u32, new: u32) -> Vec<u32> {
    let (_, count) = calls::difference(bytes, old, new, &mut []);
    let mut list = vec![0; 4 * count as usize];
    let answer = calls::difference(bytes, old, new, &mut list);
    assert_eq!(answer, (0, count));
    list
}

/// Version 1 has 1 to 4, 3 with value 0. In version 2 key 1 goes, 2 changes to
/// 0, 3 changes from 0, 4 stays, and 5 comes with value 0. Version 3 is open:
/// key 5 goes, and 1 comes back as it was.
fn three_versions() -> Vec<u8> {
    let mut bytes = fresh(16);
    open(&mut bytes);
    for (key, value) in [(1, 10), (2, 20), (3, 0), (4, 40)] {
        assert_eq!(calls::insert(&mut bytes, key, value), 0);
    }
    commit(&mut bytes);
    open(&mut bytes);
    delete_all(&mut bytes, [1, 2, 3]);
    for (key, value) in [(2, 0), (3, 30), (5, 0)] {
        assert_eq!(calls::insert(&mut bytes, key, value), 0);
    }
    commit(&mut bytes);
    open(&mut bytes);
    delete_all(&mut bytes, [5]);
    assert_eq!(calls::insert(&mut bytes, 1, 10), 0);
    bytes
}

#[test]
fn added_removed_and_changed_in_key_order() {
    let bytes = three_versions();
    let forth = [1, 1, 10, 0, 2, 2, 20, 0, 3, 2, 0, 30, 5, 0, 0, 0];
    assert_eq!(differing(&bytes, 1, 2), forth);
    let back = [1, 0, 0, 10, 2, 2, 0, 20, 3, 2, 30, 0, 5, 1, 0, 0];
    assert_eq!(differing(&bytes, 2, 1), back);
}

#[test]
fn reading_03_1_the_open_version_on_either_side() {
    let bytes = three_versions();
    let forth = [1, 0, 0, 10, 5, 1, 0, 0];
    assert_eq!(differing(&bytes, 2, 3), forth);
    assert_eq!(differing(&bytes, 3, 2), [1, 1, 10, 0, 5, 0, 0, 0]);
    // Key 1 went and came back: from 1 to 3 it does not differ.
    assert_eq!(differing(&bytes, 1, 3), [2, 2, 20, 0, 3, 2, 0, 30]);
}

#[test]
fn from_the_empty_version_all_is_added() {
    let bytes = three_versions();
    let all = [1, 0, 0, 10, 2, 0, 0, 20, 3, 0, 0, 0, 4, 0, 0, 40];
    assert_eq!(differing(&bytes, 0, 1), all);
    let gone = [1, 1, 10, 0, 2, 1, 20, 0, 3, 1, 0, 0, 4, 1, 40, 0];
    assert_eq!(differing(&bytes, 1, 0), gone);
}

#[test]
fn equal_version_numbers_give_an_empty_list() {
    let bytes = three_versions();
    for version in 0..=3 {
        let mut list = [7; 4];
        assert_eq!(
            calls::difference(&bytes, version, version, &mut list),
            (0, 0)
        );
        assert_eq!(list, [7; 4]);
        assert_eq!(calls::difference(&bytes, version, version, &mut []), (0, 0));
    }
    // Reading 03.2.
    assert_eq!(calls::difference(&bytes, 4, 4, &mut []), (6, 0));
}

#[test]
fn what_is_put_back_in_the_same_update_is_unchanged() {
    let mut bytes = three_versions();
    commit(&mut bytes);
    open(&mut bytes);
    delete_all(&mut bytes, [1, 2, 4]);
    for (key, value) in [(1, 10), (2, 1), (9, 9)] {
        assert_eq!(calls::insert(&mut bytes, key, value), 0);
    }
    delete_all(&mut bytes, [2, 9]);
    assert_eq!(calls::insert(&mut bytes, 2, 0), 0);
    assert_eq!(differing(&bytes, 3, 4), [4, 1, 40, 0]);
}

#[test]
fn a_list_one_number_short() {
    let bytes = three_versions();
    let mut list = [7; 15];
    assert_eq!(calls::difference(&bytes, 1, 2, &mut list), (14, 4));
    assert_eq!(list, [7; 15]);
    assert_eq!(calls::difference(&bytes, 1, 2, &mut []), (14, 4));
    let mut list = [7; 19];
    assert_eq!(calls::difference(&bytes, 1, 2, &mut list), (0, 4));
    assert_eq!(list[12..], [5, 0, 0, 0, 7, 7, 7]);
}

#[test]
fn refusals_in_order() {
    let bytes = three_versions();
    let mut list = [7; 3];
    let mut refused = |bytes: &[u8], old, new| {
        let answer = calls::difference(bytes, old, new, &mut list);
        assert_eq!((answer.1, list), (0, [7; 3]));
        answer.0
    };
    assert_eq!(refused(&bytes, 4, 1), 6);
    assert_eq!(refused(&bytes, 1, 4), 6);
    assert_eq!(refused(&bytes, u32::MAX, u32::MAX), 6);
    assert_eq!(refused(&bytes, HIGHEST_KEY + 1, 0), 6);
    assert_eq!(refused(&bytes[..100], 9, 9), 1);
    for (at, number) in [(0, 2), (4, 3), (90, 4), (15 * 256, 4)] {
        let mut damaged = bytes.clone();
        damaged[at] ^= 0x40;
        assert_eq!(refused(&damaged, 9, 9), number);
        assert_eq!(refused(&damaged, 1, 1), number);
    }
}

#[test]
fn bench_keys_are_named_too() {
    let mut bytes = fresh(6);
    open(&mut bytes);
    assert_eq!(raw_insert(&mut bytes, HIGHEST_KEY, 3), 0);
    assert_eq!(raw_insert(&mut bytes, 16_776_960, 0), 0);
    let expected = [16_776_960, 0, 0, 0, HIGHEST_KEY, 0, 0, 3];
    assert_eq!(differing(&bytes, 0, 1), expected);
}

/// Splits and merges copy entries; what was copied does not differ.
#[test]
fn copied_entries_do_not_differ() {
    let mut bytes = fresh(40);
    open(&mut bytes);
    insert_all(&mut bytes, 0..100);
    commit(&mut bytes);
    open(&mut bytes);
    delete_all(&mut bytes, (0..100).filter(|key| key % 10 != 3));
    insert_all(&mut bytes, 200..240);
    commit(&mut bytes);
    let gone = (0..100).filter(|key| key % 10 != 3);
    let gone = gone.flat_map(|key| [key, 1, value_of(key), 0]);
    let come = (200..240).flat_map(|key| [key, 0, 0, value_of(key)]);
    let expected: Vec<u32> = gone.chain(come).collect();
    assert_eq!(differing(&bytes, 1, 2), expected);
}

/// "Applying it to the first version's settings gives the second's."
fn apply_to(settings: &Settings, differences: &[u32]) -> Settings {
    let mut settings = settings.clone();
    for difference in differences.chunks_exact(4) {
        let &[key, kind, old, new] = difference else {
            panic!("four numbers each");
        };
        let before = match kind {
            1 => settings.remove(&key),
            _ => settings.insert(key, new),
        };
        let expected = [None, Some(old), Some(old)][kind as usize];
        assert_eq!(before, expected, "key {key}");
        assert!(kind != 2 || old != new, "{key} is unchanged");
        assert!([old, new][kind.min(1) as usize] == 0 || kind == 2);
    }
    settings
}

#[test]
fn applied_to_the_first_it_gives_the_second() {
    let mut met = [0u64; 3];
    for seed in 0..rounds(60) {
        let mut rng = Rng::new(seed);
        let (_, bytes) = history::calls(seed, KINDS[seed as usize % 4], 40, 200);
        let model = Model::of_store(&bytes);
        let last = store::header(&bytes).last();
        for _ in 0..8 {
            let (old, new) = (rng.between(0, last), rng.between(0, last));
            let found = differing(&bytes, old, new);
            assert!(found.chunks_exact(4).map(|row| row[0]).is_sorted());
            assert_eq!(&apply_to(model.at(old), &found), model.at(new));
            for row in found.chunks_exact(4) {
                met[row[1] as usize] += 1;
            }
        }
    }
    println!("added, removed, changed: {met:?}");
    assert!(met.iter().all(|count| *count > 100), "{met:?}");
}

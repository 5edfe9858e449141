//! Updates that run from the leaf to a root of level 4 and above.

use crate::calls;
use crate::common::follow::{every_version_answers, follow};
use crate::common::*;
use reference::history::{History, Kind};
use reference::model::Model;
use reference::store;
use reference::tall::{tall, Fill, Spine, Tall};
use reference::walk;

const SPINES: [Spine; 3] = [Spine::First, Spine::Middle, Spine::Last];

fn root_level(bytes: &[u8]) -> u32 {
    let last = store::header(bytes).last();
    store::level(bytes, walk::root(bytes, last))
}

fn used(bytes: &[u8]) -> usize {
    let numbers = store::page_numbers(bytes);
    numbers.filter(|n| store::level(bytes, *n) != 0).count()
}

fn opened(built: &Tall) -> (Vec<u8>, Model) {
    let mut bytes = built.store.clone();
    assert_sound(&bytes);
    open(&mut bytes);
    let model = Model::of_store(&bytes);
    (bytes, model)
}

/// An insert into the spine's leaf between its keys.
fn inserted(built: &Tall) -> Vec<u8> {
    let (mut bytes, mut model) = opened(built);
    let key = built.spine_keys[1] + 1;
    assert_eq!(calls::insert(&mut bytes, key, 1), 0);
    model.record(reference::engine::Call::Insert(key, 1));
    every_version_answers(&bytes, &model);
    bytes
}

fn deleted(built: &Tall) -> Vec<u8> {
    let (mut bytes, mut model) = opened(built);
    let key = built.spine_keys[1];
    assert_eq!(calls::delete(&mut bytes, key), 0);
    model.record(reference::engine::Call::Delete(key));
    every_version_answers(&bytes, &model);
    bytes
}

#[test]
fn a_full_spine_splits_up_to_a_new_root() {
    for spine in SPINES {
        for level in 2..=5 {
            let built = tall(&vec![Fill::new(20, 0); level], spine, 11).unwrap();
            let bytes = inserted(&built);
            assert_eq!(root_level(&bytes), level as u32 + 1);
            // Two pages a level, and the new root: 2h + 1.
            assert_eq!(used(&bytes), used(&built.store) + 2 * level + 1);
        }
    }
}

#[test]
fn a_full_spine_with_one_page_too_few_is_refused() {
    for level in 2..=4 {
        let fills = vec![Fill::new(20, 0); level];
        for free in 0..2 * level + 1 {
            let built = tall(&fills, Spine::Middle, free).unwrap();
            let (mut bytes, _) = opened(&built);
            let before = bytes.clone();
            assert_eq!(calls::insert(&mut bytes, built.spine_keys[1] + 1, 1), 12);
            assert_eq!(bytes, before);
        }
    }
}

#[test]
fn a_thin_spine_merges_down_to_a_lower_root() {
    for spine in SPINES {
        for level in 3..=7 {
            let mut fills = vec![Fill::new(4, 0); level];
            fills[level - 1] = Fill::new(2, 0);
            let built = tall(&fills, spine, level).unwrap();
            let bytes = deleted(&built);
            assert_eq!(root_level(&bytes), level as u32 - 1);
            // A page of seven for two of four at each level but the root's.
            assert_eq!(used(&bytes), used(&built.store) + level - 1);
        }
    }
}

/// Every page of the spine is full of dead entries: an insert makes each page
/// gather its neighbour, and the root goes although it has no room.
#[test]
fn a_spine_full_of_dead_entries_merges_on_an_insert() {
    for spine in SPINES {
        for level in 3..=7 {
            let mut fills = vec![Fill::new(4, 16); level];
            fills[level - 1] = Fill::new(2, 18);
            let built = tall(&fills, spine, level).unwrap();
            let bytes = inserted(&built);
            assert_eq!(root_level(&bytes), level as u32 - 1);
        }
    }
}

#[test]
fn splits_below_a_root_that_is_copied() {
    let mut fills = vec![Fill::new(16, 4); 6];
    fills[5] = Fill::new(2, 18);
    let built = tall(&fills, Spine::First, 16).unwrap();
    let bytes = inserted(&built);
    assert_eq!(root_level(&bytes), 6);
}

#[test]
fn no_store_is_taller_than_seven() {
    let mut fills = vec![Fill::new(4, 0); 8];
    fills[7] = Fill::new(2, 0);
    assert!(tall(&fills, Spine::First, 0).is_none());
}

#[test]
fn histories_go_on_from_tall_stores() {
    for (seed, spine) in (0..rounds(6)).zip(SPINES.into_iter().cycle()) {
        let mut fills = vec![Fill::new(10, 6); 4 + seed as usize % 2];
        let top = fills.len() - 1;
        fills[top] = Fill::new(2, 3);
        let built = tall(&fills, spine, 60).unwrap();
        let pages = built.store.len() / 256;
        let model = Model::of_store(&built.store);
        let mut history = History::on_store(seed, Kind::Mixed, pages, model);
        follow(&mut history, built.store, 120);
    }
}

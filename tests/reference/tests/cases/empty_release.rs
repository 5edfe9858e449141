//! An empty release is no release (2026-05): commit gives 15.

use crate::calls;
use crate::common::build::*;
use crate::common::*;
use reference::calls::raw_commit;
use reference::layout::{Slot, ALIVE};
use reference::{store, walk};

/// Keys 1 to 15 in version 1.
fn one_release() -> Vec<u8> {
    let mut bytes = fresh(16);
    open(&mut bytes);
    insert_all(&mut bytes, 1..=15);
    commit(&mut bytes);
    bytes
}

/// Commit gives 15, changes nothing and stays open.
fn is_empty(bytes: &mut [u8]) {
    let before = bytes.to_vec();
    assert_eq!(calls::commit(bytes), 15);
    assert_eq!(bytes, before);
    assert!(store::header(bytes).open);
}

#[test]
fn nothing_done_at_all() {
    let mut bytes = fresh(6);
    let before = bytes.clone();
    open(&mut bytes);
    is_empty(&mut bytes);
    is_empty(&mut bytes);
    abandon(&mut bytes);
    assert_eq!(bytes, before);
}

#[test]
fn an_insert_undone_by_a_delete() {
    let mut bytes = one_release();
    open(&mut bytes);
    insert_all(&mut bytes, [40]);
    delete_all(&mut bytes, [40]);
    is_empty(&mut bytes);
}

#[test]
fn even_if_pages_were_split() {
    let mut bytes = one_release();
    let before = bytes.clone();
    open(&mut bytes);
    insert_all(&mut bytes, 100..140);
    delete_all(&mut bytes, 100..140);
    assert_ne!(walk::root(&bytes, 2), walk::root(&bytes, 1));
    is_empty(&mut bytes);
    abandon(&mut bytes);
    assert_eq!(bytes, before);
}

#[test]
fn a_delete_undone_by_an_insert() {
    let mut bytes = one_release();
    open(&mut bytes);
    delete_all(&mut bytes, [3, 4]);
    insert_all(&mut bytes, [4]);
    insert_all(&mut bytes, [3]);
    is_empty(&mut bytes);
    // With another value it is a change.
    delete_all(&mut bytes, [4]);
    assert_eq!(calls::insert(&mut bytes, 4, 41), 0);
    commit(&mut bytes);
    assert_eq!(calls::lookup(&bytes, 4, 2), (0, true, 41));
    assert_eq!(calls::lookup(&bytes, 4, 1), (0, true, 40));
}

#[test]
fn what_is_a_change() {
    let changes: [fn(&mut [u8]); 4] = [
        |bytes| assert_eq!(calls::insert(bytes, 99, 0), 0),
        |bytes| assert_eq!(calls::delete(bytes, 15), 0),
        |bytes| delete_all(bytes, 1..=15),
        // As many settings, the same values, at other keys.
        |bytes| {
            delete_all(bytes, [1, 2]);
            assert_eq!(calls::insert(bytes, 1, 20), 0);
            assert_eq!(calls::insert(bytes, 2, 10), 0);
        },
    ];
    for change in changes {
        let mut bytes = one_release();
        open(&mut bytes);
        change(&mut bytes);
        commit(&mut bytes);
        assert_eq!(store::header(&bytes).current, 2);
    }
}

#[test]
fn reading_05_1_the_update_may_go_on() {
    let mut bytes = one_release();
    open(&mut bytes);
    is_empty(&mut bytes);
    assert_eq!(calls::open(&mut bytes), 8);
    insert_all(&mut bytes, [40]);
    commit(&mut bytes);
    let header = store::header(&bytes);
    assert_eq!((header.current, header.open), (2, false));
    open(&mut bytes);
    delete_all(&mut bytes, [40]);
    // As version 1 was, but not as version 2 is.
    commit(&mut bytes);
    assert_eq!(store::header(&bytes).current, 3);
}

#[test]
fn behind_four_and_seven() {
    let mut bytes = fresh(6);
    assert_eq!(calls::commit(&mut bytes), 7);
    open(&mut bytes);
    bytes[255] = 1;
    assert_eq!(calls::commit(&mut bytes), 4);
    assert_eq!(calls::commit(&mut bytes[..9]), 1);
    bytes[4] = 7;
    assert_eq!(calls::commit(&mut bytes), 3);
    bytes[0] = 7;
    assert_eq!(calls::commit(&mut bytes), 2);
}

/// The open version has pages, a router and a slot of its own, and the same
/// settings.
#[test]
fn whatever_happened_to_pages_elsewhere() {
    let pages = vec![
        leaf(1, ALIVE, [10, 20, 30, 40]),
        leaf(1, ALIVE, [100, 110, 120, 130]),
        index(1, ALIVE, &[(0, 6), (100, 7)]),
    ];
    let mut image = image(1, true, &[(1, 8)], pages);
    free_pages(&mut image, 1);
    renew_leaf(&mut image, 8, 6, 9);
    image.slots.push(Slot {
        version: 2,
        root: 8,
    });
    let mut bytes = image.write();
    assert_sound(&bytes);
    is_empty(&mut bytes);
    delete_all(&mut bytes, [10]);
    commit(&mut bytes);
}

/// Releases from before, empty ones among them, are read as ever.
#[test]
fn empty_releases_from_before() {
    let mut bytes = one_release();
    for _ in 0..100 {
        open(&mut bytes);
        is_empty(&mut bytes);
        assert_eq!(raw_commit(&mut bytes), 0);
    }
    assert_eq!(store::header(&bytes).current, 101);
    assert_eq!(calls::lookup(&bytes, 3, 50), (0, true, 30));
    open(&mut bytes);
    is_empty(&mut bytes);
    delete_all(&mut bytes, [3]);
    commit(&mut bytes);
    assert_eq!(calls::lookup(&bytes, 3, 101), (0, true, 30));
}

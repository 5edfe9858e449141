//! What a store tells of itself: pages, current version, whether an update is
//! open, roots used, edition, free pages, oldest version.

use crate::calls;
use crate::common::build::*;
use crate::common::*;
use reference::edition::{FIRST, SECOND};
use reference::foreign::raise_current;
use reference::layout::{Slot, ALIVE};
use reference::state::State;
use reference::store::page_bytes_mut;

/// The seven numbers in their order, of a store that is sound.
fn told(bytes: &[u8]) -> [u32; 7] {
    let (number, told) = calls::state(bytes);
    assert_eq!(number, 0);
    told.numbers()
}

/// Refused by this number, all else 0.
fn refused(bytes: &[u8], number: u32) {
    assert_eq!(calls::state(bytes), (number, State::default()));
}

#[test]
fn of_fresh_stores() {
    assert_eq!(told(&fresh(6)), [6, 0, 0, 1, 1, 0, 0]);
    assert_eq!(told(&fresh(4096)), [4096, 0, 0, 1, 1, 4090, 0]);
    assert_eq!(told(&fresh_second(6)), [6, 0, 0, 1, 2, 0, 0]);
    assert_eq!(told(&fresh_second(4096)), [4096, 0, 0, 1, 2, 4090, 0]);
}

/// What is told of an open update is what stands in the store: its pages and its
/// root count, its version does not.
#[test]
fn along_two_updates() {
    let mut bytes = fresh(12);
    open(&mut bytes);
    assert_eq!(told(&bytes), [12, 0, 1, 1, 1, 6, 0]);
    insert_all(&mut bytes, 1..=20);
    assert_eq!(told(&bytes), [12, 0, 1, 1, 1, 6, 0]);
    // Two leaves and a root, and page 5 is killed.
    insert_all(&mut bytes, [21]);
    assert_eq!(told(&bytes), [12, 0, 1, 2, 1, 3, 0]);
    commit(&mut bytes);
    assert_eq!(told(&bytes), [12, 1, 0, 2, 1, 3, 0]);
    open(&mut bytes);
    delete_all(&mut bytes, 1..=8);
    assert_eq!(told(&bytes), [12, 1, 1, 3, 1, 2, 0]);
    abandon(&mut bytes);
    assert_eq!(told(&bytes), [12, 1, 0, 2, 1, 3, 0]);
}

#[test]
fn behind_a_prune() {
    let mut bytes = two_releases();
    assert_eq!(told(&bytes), [12, 2, 0, 3, 2, 2, 0]);
    assert_eq!(calls::prune(&mut bytes, 1), 0);
    assert_eq!(told(&bytes), [12, 2, 0, 2, 2, 3, 1]);
    assert_eq!(calls::prune(&mut bytes, 2), 0);
    assert_eq!(told(&bytes), [12, 2, 0, 1, 2, 6, 2]);
    open(&mut bytes);
    assert_eq!(told(&bytes), [12, 2, 1, 1, 2, 6, 2]);
}

/// The highest versions and all slots, of either edition.
#[test]
fn the_highest_numbers() {
    for (edition, most) in [(&FIRST, 256), (&SECOND, 512)] {
        let number = u32::from(edition.number);
        let mut image = image_of(edition, 0, false, &[], vec![leaf(1, ALIVE, 1..=32)]);
        image.page_mut(6).entries.truncate(16);
        for version in 1..most {
            image.slots.push(Slot { version, root: 6 });
        }
        image.header.current = most - 1;
        let mut bytes = image.write();
        raise_current(&mut bytes, 1_048_573);
        assert_eq!(told(&bytes), [7, 1_048_573, 0, most, number, 0, 0]);
        open(&mut bytes);
        assert_eq!(told(&bytes), [7, 1_048_573, 1, most, number, 0, 0]);
        insert_all(&mut bytes, [40]);
        commit(&mut bytes);
        assert_eq!(told(&bytes), [7, 1_048_574, 0, most, number, 0, 0]);
    }
    let mut bytes = fresh_second(6);
    raise_current(&mut bytes, 1_048_574);
    assert_eq!(calls::prune(&mut bytes, 1_048_574), 0);
    assert_eq!(told(&bytes), [6, 1_048_574, 0, 1, 2, 0, 1_048_574]);
}

/// It judges the whole store, a page that no version needs too, and says nothing
/// of one that is not sound.
#[test]
fn refusals_in_their_order() {
    let mut bytes = fresh_second(12);
    open(&mut bytes);
    insert_all(&mut bytes, [1]);
    for length in [0, 4] {
        refused(&bytes[..length], 1);
    }
    refused(&bytes[..12 * 512 - 1], 1);
    refused(&bytes[..5 * 512], 1);
    let mut wrong_count = bytes.clone();
    page_bytes_mut(&mut wrong_count, 5)[6] ^= 1;
    refused(&wrong_count, 4);
    page_bytes_mut(&mut bytes, 11)[511] = 1;
    refused(&bytes, 4);
    bytes[4] = 3;
    refused(&bytes, 3);
    refused(&bytes[..5], 3);
    bytes[0] = 0;
    refused(&bytes, 2);
}

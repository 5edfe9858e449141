//! Pages and slots that run out, by both programs: 12 at every page count from
//! 6 to 64, 13 at the 257th root.

mod common;

use common::{calls, rounds};
use reference::layout::SLOTS;
use reference::{store, unjudged};

/// Inserts keys one by one, `per_version` to a version, until 12 is given. The
/// reference goes ahead, without judging; from its last `compared` inserts on
/// both programs make every call.
fn fill_up(pages: usize, per_version: u32, compared: u32, key: impl Fn(u32) -> u32) {
    let mut last = fresh(pages);
    while inserted(&mut last, per_version, &key, unjudged::insert) == 0 {}
    let whole = unjudged_count(&last);
    let mut bytes = fresh(pages);
    while unjudged_count(&bytes) + compared < whole {
        assert_eq!(inserted(&mut bytes, per_version, &key, unjudged::insert), 0);
    }
    while inserted(&mut bytes, per_version, &key, calls::insert) == 0 {}
    assert_eq!(bytes, last);
    let before = bytes.clone();
    assert_eq!(calls::insert(&mut bytes, key(whole), whole), 12);
    assert_eq!(bytes, before);
}

fn fresh(pages: usize) -> Vec<u8> {
    let mut bytes = vec![0xA5; pages * 256];
    assert_eq!(calls::fresh(&mut bytes), 0);
    assert_eq!(calls::open(&mut bytes), 0);
    bytes
}

fn unjudged_count(bytes: &[u8]) -> u32 {
    let last = store::header(bytes).last();
    unjudged::range(bytes, 0, 16_777_215, last, &mut []).1
}

/// The next key goes in, in a new version where one is due.
fn inserted(
    bytes: &mut [u8],
    per_version: u32,
    key: &impl Fn(u32) -> u32,
    insert: fn(&mut [u8], u32, u32) -> u32,
) -> u32 {
    let count = unjudged_count(bytes);
    let due = count / per_version > store::header(bytes).current;
    if due {
        unjudged::raw_commit(bytes);
        unjudged::open(bytes);
    }
    insert(bytes, key(count), count)
}

#[test]
fn twelve_at_every_page_count() {
    let compared = rounds(8) as u32;
    for pages in 6..=64 {
        fill_up(pages, u32::MAX, compared, |n| n);
        fill_up(pages, u32::MAX, compared, |n| 100_000 - n);
        fill_up(pages, 7, compared, |n| n * 7919 % 100_003);
        fill_up(pages, 1, compared, |n| n);
    }
}

/// Makes the leaf root anew in the open version: of its sixteen settings five
/// go and come back, so that the version is empty. Gives the number of the last insert.
fn new_root(
    bytes: &mut [u8],
    insert: fn(&mut [u8], u32, u32) -> u32,
    delete: fn(&mut [u8], u32) -> u32,
) -> u32 {
    for key in 1..=5 {
        assert_eq!(delete(bytes, key), 0);
    }
    for key in 1..=4 {
        assert_eq!(insert(bytes, key, 10 * key), 0);
    }
    insert(bytes, 5, 50)
}

/// A store with `roots` roots, the last of them the current version's. From the
/// second new root on the settings stay: commits as they were before 2026-05.
fn many_roots(pages: usize, roots: u32) -> Vec<u8> {
    let mut bytes = fresh(pages);
    for key in 1..=16 {
        assert_eq!(unjudged::insert(&mut bytes, key, key), 0);
    }
    unjudged::raw_commit(&mut bytes);
    while store::header(&bytes).roots < roots {
        unjudged::open(&mut bytes);
        assert_eq!(new_root(&mut bytes, unjudged::insert, unjudged::delete), 0);
        unjudged::raw_commit(&mut bytes);
    }
    bytes
}

#[test]
fn reading_27_thirteen_from_262_pages_on() {
    for (pages, number) in [(261, 12), (262, 13)] {
        let mut bytes = many_roots(pages, SLOTS);
        let before = bytes.clone();
        assert_eq!(calls::open(&mut bytes), 0);
        assert_eq!(new_root(&mut bytes, calls::insert, calls::delete), number);
        assert_eq!(calls::abandon(&mut bytes), 0);
        assert_eq!(bytes, before);
    }
}

/// The 256th root is taken.
#[test]
fn thirteen_never_where_the_open_version_has_its_slot() {
    let mut bytes = many_roots(300, SLOTS - 1);
    assert_eq!(calls::open(&mut bytes), 0);
    assert_eq!(new_root(&mut bytes, calls::insert, calls::delete), 0);
    assert_eq!(store::header(&bytes).roots, SLOTS);
    // The root of the open version splits, and a root above it takes over.
    for key in 100..=104 {
        assert_eq!(calls::insert(&mut bytes, key, key), 0);
    }
    let slot = store::slot(&bytes, SLOTS - 1);
    assert_eq!(store::header(&bytes).roots, SLOTS);
    assert_eq!(store::level(&bytes, slot.root), 2);
}

//! Pages and slots that run out: 12 and 13.

mod common;

use common::follow::follow;
use common::*;
use reference::calls;
use reference::edition::SECOND;
use reference::engine::{Answer, Call};
use reference::history::{History, Kind, KINDS};
use reference::layout::SLOTS;
use reference::{store, unjudged};

/// Inserts keys one by one, `per_version` to a version, until 12 is given;
/// gives how many went in. The store is judged at the end only, to save time.
fn fill_up(pages: usize, per_version: u32, key: impl Fn(u32) -> u32) -> u32 {
    let mut bytes = fresh(pages);
    open(&mut bytes);
    let mut count = 0;
    while unjudged::insert(&mut bytes, key(count), count) == 0 {
        count += 1;
        if count.is_multiple_of(per_version) {
            unjudged::raw_commit(&mut bytes);
            unjudged::open(&mut bytes);
        }
    }
    let before = bytes.clone();
    assert_eq!(calls::insert(&mut bytes, key(count), count), 12);
    assert_eq!(bytes, before);
    // Reads go on.
    let last = store::header(&bytes).last();
    assert_eq!(calls::lookup(&bytes, key(0), last), (0, true, 0));
    count
}

#[test]
fn twelve_at_every_page_count() {
    for pages in 6..=64 {
        let rising = fill_up(pages, u32::MAX, |n| n);
        let falling = fill_up(pages, u32::MAX, |n| 100_000 - n);
        let scattered = fill_up(pages, 7, |n| n * 7919 % 100_003);
        let each_its_version = fill_up(pages, 1, |n| n);
        for count in [rising, falling, scattered, each_its_version] {
            assert!(count >= 20 && count as usize <= 20 * (pages - 5));
        }
        if pages <= 8 {
            assert_eq!(rising, 20);
        }
    }
}

/// Each kind of history on each page count, until pages run out.
#[test]
fn twelve_in_histories() {
    for pages in 6..=64 {
        let kind = KINDS[pages % 3];
        let mut history = History::new(pages as u64, kind, pages);
        follow(&mut history, vec![0; pages * 256], 60 + 3 * pages);
    }
}

/// Makes the leaf root anew in the open version: of its sixteen settings five
/// go and come back, so that the version is empty. Gives the number of the last insert.
fn new_root(bytes: &mut [u8]) -> u32 {
    delete_all(bytes, 1..=5);
    insert_all(bytes, 1..=4);
    calls::insert(bytes, 5, 50)
}

fn sixteen_settings(pages: usize) -> Vec<u8> {
    let mut bytes = fresh(pages);
    open(&mut bytes);
    insert_all(&mut bytes, 1..=16);
    commit(&mut bytes);
    bytes
}

#[test]
fn reading_27_thirteen_from_262_pages_on() {
    for (pages, number) in [(261, 12), (262, 13)] {
        let mut bytes = sixteen_settings(pages);
        // Version 0's slot is the first; each further version adds one.
        for roots in 2..=SLOTS {
            open(&mut bytes);
            assert_eq!(new_root(&mut bytes), 0);
            commit_as_before(&mut bytes);
            assert_eq!(store::header(&bytes).roots, roots);
        }
        open(&mut bytes);
        let before_last = {
            delete_all(&mut bytes, 1..=5);
            insert_all(&mut bytes, 1..=4);
            bytes.clone()
        };
        assert_eq!(calls::insert(&mut bytes, 5, 50), number);
        assert_eq!(bytes, before_last);
        assert_sound(&bytes);
        abandon(&mut bytes);
        assert_eq!(store::header(&bytes).roots, SLOTS);
    }
}

#[test]
fn thirteen_never_where_the_open_version_has_its_slot() {
    let mut bytes = sixteen_settings(300);
    for _ in 3..=SLOTS {
        open(&mut bytes);
        assert_eq!(new_root(&mut bytes), 0);
        commit_as_before(&mut bytes);
    }
    open(&mut bytes);
    assert_eq!(new_root(&mut bytes), 0);
    assert_eq!(store::header(&bytes).roots, 256);
    // The root of the open version splits, and a root above it takes over.
    insert_all(&mut bytes, 100..=120);
    assert_eq!(store::header(&bytes).roots, 256);
    let (version, root) = slots(&bytes)[255];
    assert_eq!((version, store::level(&bytes, root)), (256, 2));
}

/// In edition 2 the 513th.
#[test]
fn thirteen_in_histories_of_edition_2() {
    let mut history = History::of(&SECOND, 1, Kind::NewRoots, 540);
    let mut bytes = vec![0; 540 * 512];
    let mut given = 0;
    for _ in 0..13_000 {
        let call = history.next_call();
        // Judging would take most of the time.
        let answer = match call {
            Call::Open => Answer::of(unjudged::open(&mut bytes)),
            Call::Insert(key, value) => Answer::of(unjudged::insert(&mut bytes, key, value)),
            Call::Delete(key) => Answer::of(unjudged::delete(&mut bytes, key)),
            Call::Commit => Answer::of(unjudged::commit(&mut bytes)),
            Call::FreshSecond => Answer::of(calls::fresh_second(&mut bytes)),
            _ => continue,
        };
        history.observe(call, &answer);
        if answer.number == 13 {
            assert_eq!(store::header(&bytes).roots, 512);
            given += 1;
        }
    }
    assert!(given > 3, "{given}");
}

#[test]
fn thirteen_in_histories() {
    let mut history = History::new(5, Kind::NewRoots, 280);
    let followed = follow(&mut history, vec![0; 280 * 256], 4000);
    println!("{:?}", followed.tally);
    assert!(followed.tally[&13] > 3);
}

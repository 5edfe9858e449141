//! What several of the tests use.

#![allow(dead_code)]

pub mod build;
pub mod follow;
pub mod literal;
pub mod reader;

use crate::calls;
use reference::edition::Edition;
use reference::image::Image;
use reference::layout::{Entry, Header, Page, Slot, Span, ALIVE};
use reference::store;
use reference::tall::{tall, Fill, Spine};

/// A fresh store of `pages` pages, made over bytes that are not zero.
pub fn fresh(pages: usize) -> Vec<u8> {
    let mut bytes = vec![0xA5; pages * 256];
    assert_eq!(calls::fresh(&mut bytes), 0);
    bytes
}

/// The same of edition 2.
pub fn fresh_second(pages: usize) -> Vec<u8> {
    let mut bytes = vec![0xA5; pages * 512];
    assert_eq!(calls::fresh_second(&mut bytes), 0);
    bytes
}

pub fn open(bytes: &mut [u8]) {
    assert_eq!(calls::open(bytes), 0, "open");
}

pub fn commit(bytes: &mut [u8]) {
    assert_eq!(calls::commit(bytes), 0, "commit");
}

/// A version as before 2026-05, when it could be empty.
pub fn commit_as_before(bytes: &mut [u8]) {
    assert_eq!(reference::calls::raw_commit(bytes), 0, "raw commit");
}

pub fn abandon(bytes: &mut [u8]) {
    assert_eq!(calls::abandon(bytes), 0, "abandon");
}

/// Inserts each key with ten times its number as its value.
pub fn insert_all(bytes: &mut [u8], keys: impl IntoIterator<Item = u32>) {
    for key in keys {
        assert_eq!(calls::insert(bytes, key, value_of(key)), 0, "insert {key}");
    }
    assert_sound(bytes);
}

pub fn delete_all(bytes: &mut [u8], keys: impl IntoIterator<Item = u32>) {
    for key in keys {
        assert_eq!(calls::delete(bytes, key), 0, "delete {key}");
    }
    assert_sound(bytes);
}

/// `bytes` with an update opened, and these keys inserted in it.
pub fn opened_with(mut bytes: Vec<u8>, keys: impl IntoIterator<Item = u32>) -> Vec<u8> {
    open(&mut bytes);
    insert_all(&mut bytes, keys);
    bytes
}

/// Keys that split a root in version 1, and so many of them gone in version 2 that
/// its leaves merge: page 5 lived from 0 to 1, 6, 7 and 8 from 1 to 2; 9 lives from
/// 2 on.
pub fn split_and_merged(fresh: Vec<u8>, keys: Keys, gone: Keys) -> Vec<u8> {
    let mut bytes = opened_with(fresh, keys);
    commit(&mut bytes);
    open(&mut bytes);
    delete_all(&mut bytes, gone);
    commit(&mut bytes);
    assert_eq!(slots(&bytes), [(0, 5), (1, 8), (2, 9)]);
    bytes
}

type Keys = std::ops::RangeInclusive<u32>;

/// An edition 2 store of 12 pages: keys 1 to 41, and 22 to 34 gone.
pub fn two_releases() -> Vec<u8> {
    split_and_merged(fresh_second(12), 1..=41, 22..=34)
}

/// The page has just these keys, alive from `start` on, as inserted above.
pub fn keys_from(page: &Page, keys: impl Iterator<Item = u32>, start: u32) {
    let expected = keys.map(|key| entry(key, start, ALIVE, value_of(key)));
    assert_eq!(page.entries, expected.collect::<Vec<_>>());
}

pub fn value_of(key: u32) -> u32 {
    key.wrapping_mul(10)
}

pub fn assert_sound(bytes: &[u8]) {
    assert_eq!(calls::check(bytes), (0, 0));
}

pub fn slots(bytes: &[u8]) -> Vec<(u32, u32)> {
    let roots = store::header(bytes).roots;
    let slots = (0..roots).map(|index| store::slot(bytes, index));
    slots
        .map(|Slot { version, root }| (version, root))
        .collect()
}

pub fn span(page: &Page) -> (u32, u32) {
    (page.span.start, page.span.end)
}

/// Keys of the entries alive at `version`.
pub fn live_keys(page: &Page, version: u32) -> Vec<u32> {
    page.live(version).map(|entry| entry.key).collect()
}

/// Key and value of the entries alive at `version`.
pub fn live_pairs(page: &Page, version: u32) -> Vec<(u32, u32)> {
    let live = page.live(version);
    live.map(|entry| (entry.key, entry.value)).collect()
}

pub fn entry(key: u32, start: u32, end: u32, value: u32) -> Entry {
    Entry {
        key,
        span: Span { start, end },
        value,
    }
}

/// Whether the long runs are asked for.
pub fn long() -> bool {
    std::env::var("RCST_LONG").is_ok_and(|value| value == "1")
}

/// `short` rounds, or twenty times as many in the long runs.
pub fn rounds(short: u64) -> u64 {
    if long() {
        short * 20
    } else {
        short
    }
}

/// The same store with `more` free pages behind its own. Page rules take the
/// lowest free page, so an update here goes as it would there, only that it
/// is not refused for lack of a page.
pub fn roomier(bytes: &[u8], more: usize) -> Vec<u8> {
    let mut bytes = bytes.to_vec();
    bytes.resize(bytes.len() + more * Edition::of(&bytes).page_bytes, 0);
    let header = Header {
        page_count: store::page_count(&bytes),
        ..store::header(&bytes)
    };
    store::write_header(&mut bytes, header);
    bytes
}

/// A tall store in which each of more than a thousand leaves has an entry that
/// lives again at a version of its own.
pub fn many_versions() -> Vec<u8> {
    let mut fills = [Fill::new(20, 0); 5];
    fills[0] = Fill::new(4, 0);
    let built = tall(&fills, Spine::First, 0).expect("fits");
    let mut image = Image::read(&built.store);
    let leaves: Vec<u32> = image
        .used()
        .filter(|(_, page)| page.level == 1 && page.span.start == 1)
        .map(|(number, _)| number)
        .collect();
    assert!(leaves.len() > 1000);
    for (version, number) in (2..).zip(leaves) {
        image.header.current = version;
        let entries = &mut image.page_mut(number).entries;
        let mut again = entries[0];
        entries[0].span.end = version;
        again.span.start = version;
        entries.insert(1, again);
    }
    image.write()
}

//! Edition 2 (2026-08): its bytes, its limits 8, 16, 32 and 40, its 512 slots,
//! and the new order of refusals.

use crate::calls;
use crate::common::build::*;
use crate::common::*;
use reference::check::judge_as_edition_1;
use reference::edition::{Edition, SECOND};
use reference::image::Image;
use reference::layout::{at, Page, ALIVE};
use reference::samples::{second_store, sound_store};
use reference::store::{self, page, page_bytes, page_bytes_mut};
use reference::tall::{tall_of, Fill, Spine, Tall};
use reference::{unjudged, walk};

const HEADER: [u8; 11] = [
    0x52, 0x43, 0x53, 0x54, 0x02, 0x00, 0x30, 0x00, 0x00, 0x00, 0x10,
];
const PAGE_5: [u8; 7] = [0x10, 0, 0, 0x03, 0xFF, 0xFF, 0xC0];

#[test]
fn fresh_six_pages_byte_for_byte() {
    let mut expected = vec![0; 6 * 512];
    expected[..11].copy_from_slice(&HEADER);
    expected[512..516].copy_from_slice(&[0, 0, 0, 5]);
    expected[5 * 512..5 * 512 + 7].copy_from_slice(&PAGE_5);
    let bytes = fresh_second(6);
    assert_eq!(bytes, expected);
    assert_sound(&bytes);
}

/// Keys 1 to 41 inserted in version 1, from a fresh store of 16 pages.
#[test]
fn golden_heads_of_a_split_root() {
    let bytes = p2(16);
    let header = [
        0x52, 0x43, 0x53, 0x54, 0x02, 0x00, 0x80, 0x00, 0x00, 0x40, 0x20, 0,
    ];
    assert_eq!(bytes[..12], header);
    assert_eq!(bytes[512..520], [0, 0, 0, 5, 0, 0, 0x10, 8]);
    let head = |number| &page_bytes(&bytes, number)[..8];
    // Level, count, start, end, live count: a leaf without entries from 0 to 1,
    // leaves of 21 and of 20 from 1 on, an index page of 2.
    assert_eq!(head(5), [0x10, 0x00, 0x00, 0x00, 0x00, 0x00, 0x40, 0]);
    assert_eq!(head(6), [0x15, 0x40, 0x00, 0x07, 0xFF, 0xFF, 0xD5, 0]);
    assert_eq!(head(7), [0x15, 0x00, 0x00, 0x07, 0xFF, 0xFF, 0xD4, 0]);
    assert_eq!(head(8), [0x20, 0x80, 0x00, 0x07, 0xFF, 0xFF, 0xC2, 0]);
    // The last entry of page 6 is key 21, value 210; the second router's low
    // key is 22, its page 7.
    let last = &page_bytes(&bytes, 6)[16 + 20 * 12..16 + 21 * 12];
    assert_eq!(last, [0, 0, 21, 0, 0, 0x1F, 0xFF, 0xFF, 0, 0, 0, 210]);
    let second = &page_bytes(&bytes, 8)[28..40];
    assert_eq!(second, [0, 0, 22, 0, 0, 0x1F, 0xFF, 0xFF, 0, 0, 0, 7]);
}

/// Keys 1 to 40 inserted in version 1 of a fresh store.
fn p1(pages: usize) -> Vec<u8> {
    opened_with(fresh_second(pages), 1..=40)
}

fn p2(pages: usize) -> Vec<u8> {
    opened_with(fresh_second(pages), 1..=41)
}

#[test]
fn all_40_stand_in_page_5() {
    let bytes = p1(16);
    keys_from(&page(&bytes, 5), 1..=40, 1);
    assert!((6..16).all(|number| page(&bytes, number).is_free()));
    assert_eq!(slots(&bytes), [(0, 5)]);
    // The sixteen bytes behind the entries stay zero.
    assert!(page_bytes(&bytes, 5)[496..].iter().all(|byte| *byte == 0));
    assert!(page_bytes(&bytes, 5)[495] > 0);
}

#[test]
fn the_41st_key_splits_21_and_20() {
    let bytes = p2(16);
    keys_from(&page(&bytes, 6), 1..=21, 1);
    keys_from(&page(&bytes, 7), 22..=41, 1);
    let eight = page(&bytes, 8);
    let routers = [entry(0, 1, ALIVE, 6), entry(22, 1, ALIVE, 7)];
    assert_eq!((eight.level, eight.entries), (2, routers.to_vec()));
    let five = page(&bytes, 5);
    assert_eq!((span(&five), five.entries.len()), ((0, 1), 0));
    assert_eq!(slots(&bytes), [(0, 5), (1, 8)]);
}

#[test]
fn eight_pages_are_too_few_nine_are_enough() {
    let mut bytes = p1(8);
    let before = bytes.clone();
    assert_eq!(calls::insert(&mut bytes, 41, 0), 12);
    assert_eq!(bytes, before);
    assert_eq!(slots(&p2(9)), [(0, 5), (1, 8)]);
}

#[test]
fn merging_under_8() {
    let mut bytes = p2(16);
    delete_all(&mut bytes, 22..=33);
    keys_from(&page(&bytes, 7), 34..=41, 1);
    assert_eq!(slots(&bytes), [(0, 5), (1, 8)]);
    delete_all(&mut bytes, [34]);
    keys_from(&page(&bytes, 6), (1..=21).chain(35..=41), 1);
    assert!((7..16).all(|number| page(&bytes, number).is_free()));
    assert_eq!(slots(&bytes), [(0, 5), (1, 6)]);
    abandon(&mut bytes);
    assert_eq!(bytes, fresh_second(16));
}

#[test]
fn an_old_version_is_read_by_its_old_pages() {
    let mut bytes = p2(16);
    commit(&mut bytes);
    open(&mut bytes);
    delete_all(&mut bytes, 22..=34);
    let nine = page(&bytes, 9);
    assert_eq!((nine.entries.len(), span(&nine)), (28, (2, ALIVE)));
    for number in 6..=8 {
        assert_eq!(span(&page(&bytes, number)), (1, 2));
    }
    assert_eq!(slots(&bytes), [(0, 5), (1, 8), (2, 9)]);
    assert_eq!(calls::lookup(&bytes, 30, 1), (0, true, 300));
    assert_eq!(calls::lookup(&bytes, 30, 2), (0, false, 0));
    let mut pages = [0; 5];
    assert_eq!(calls::visits(&bytes, 30, 1, &mut pages), (0, 2));
    assert_eq!(pages[..2], [8, 7]);
    let mut list = [0; 82];
    assert_eq!(calls::range(&bytes, 0, 100, 1, &mut list), (0, 41));
    assert_eq!(list[80..], [41, 410]);
    assert_eq!(calls::range(&bytes, 0, 100, 1, &mut list[..81]), (14, 41));
    assert_eq!(calls::range(&bytes, 0, 100, 2, &mut list), (0, 28));
}

/// Keys 1 to 40 committed, then an update with so many of the first gone and
/// key 50 inserted, which makes 41 entries.
fn overflowed_by_dead(gone: u32) -> Vec<u8> {
    let mut bytes = p1(16);
    commit(&mut bytes);
    open(&mut bytes);
    delete_all(&mut bytes, 1..=gone);
    insert_all(&mut bytes, [50]);
    bytes
}

#[test]
fn thirty_two_fill_one_page_and_33_two() {
    let bytes = overflowed_by_dead(9);
    let six = page(&bytes, 6);
    assert_eq!((six.entries.len(), span(&six)), (32, (2, ALIVE)));
    assert_eq!(slots(&bytes), [(0, 5), (2, 6)]);
    let bytes = overflowed_by_dead(8);
    assert_eq!(page(&bytes, 6).entries.len(), 17);
    assert_eq!(page(&bytes, 7).entries.len(), 16);
    assert_eq!(live_pairs(&page(&bytes, 8), 2), [(0, 6), (26, 7)]);
}

#[test]
fn delete_and_insert_again() {
    let mut bytes = p1(16);
    commit(&mut bytes);
    let before = bytes.clone();
    open(&mut bytes);
    delete_all(&mut bytes, [1]);
    insert_all(&mut bytes, [1]);
    assert_eq!(live_pairs(&page(&bytes, 8), 2), [(0, 6), (21, 7)]);
    assert_eq!(page(&bytes, 6).entries.len(), 20);
    abandon(&mut bytes);
    assert_eq!(bytes, before);
}

/// Two leaves under a root in version 1, opened; the first has `live` settings
/// and as many dead entries as fill it.
fn crowded(live: u32, right: u32) -> Vec<u8> {
    let dead = 40 - live;
    let left = with_dead(leaf(1, ALIVE, 0..live), dead);
    let pages = vec![
        left,
        leaf(1, ALIVE, 1000..1000 + right),
        index(1, ALIVE, &[(0, 6), (1000, 7)]),
        Page::free(),
        Page::free(),
        Page::free(),
    ];
    let mut bytes = image_of(&SECOND, dead + 1, true, &[(1, 8)], pages).write();
    assert_sound(&bytes);
    assert_eq!(calls::insert(&mut bytes, 500, 5), 0);
    assert_sound(&bytes);
    bytes
}

/// "16 (in place of 01's 8)": a page that overflowed by dead entries takes its
/// neighbour along where its wanted list has under 16.
#[test]
fn under_16_takes_the_neighbour_along() {
    let bytes = crowded(15, 20);
    assert_eq!(page(&bytes, 9).entries.len(), 16);
    assert_eq!(span(&page(&bytes, 7)), (1, ALIVE));
    let bytes = crowded(14, 20);
    assert_eq!(page(&bytes, 9).entries.len(), 18);
    assert_eq!(page(&bytes, 10).entries.len(), 17);
    assert_eq!(span(&page(&bytes, 7)).1, store::header(&bytes).last());
    // 15 and 17 fill one page, 15 and 18 two; then one router is left and the
    // root goes, or two.
    assert_eq!(page(&crowded(14, 17), 9).entries.len(), 32);
    assert_eq!(page(&crowded(14, 18), 9).entries.len(), 17);
}

#[test]
fn seven_and_forty_make_24_and_23() {
    let pages = vec![
        leaf(1, ALIVE, 0..8),
        leaf(1, ALIVE, 1000..1040),
        index(1, ALIVE, &[(0, 6), (1000, 7)]),
        Page::free(),
        Page::free(),
    ];
    let mut bytes = image_of(&SECOND, 1, true, &[(1, 8)], pages).write();
    assert_sound(&bytes);
    assert_eq!(calls::delete(&mut bytes, 3), 0);
    assert_eq!(page(&bytes, 9).entries.len(), 24);
    assert_eq!(page(&bytes, 10).entries.len(), 23);
}

#[test]
fn eight_live_entries_and_seven() {
    let image = |count: u32| {
        let pages = vec![
            leaf(1, ALIVE, 0..8),
            leaf(1, ALIVE, 1000..1000 + count),
            index(1, ALIVE, &[(0, 6), (1000, 7)]),
        ];
        image_of(&SECOND, 1, false, &[(1, 8)], pages).write()
    };
    assert_sound(&image(8));
    assert_eq!(calls::check(&image(7)), (4, 5));
}

fn rule_1_broken(change: impl Fn(&mut [u8])) {
    let mut bytes = p2(16);
    change(&mut bytes);
    assert_eq!(calls::check(&bytes), (4, 1));
    assert_eq!(calls::open(&mut bytes), 4);
}

#[test]
fn counts_and_zero_bits() {
    // 513 roots, and what a field of ten bits holds besides.
    for roots in [513, 600, 1023] {
        rule_1_broken(|bytes| SECOND.root_count.set(bytes, roots));
    }
    rule_1_broken(|bytes| SECOND.root_count.set(bytes, 3));
    // The header's first bit behind the root count, and its last.
    rule_1_broken(|bytes| bytes[10] |= 0x08);
    rule_1_broken(|bytes| bytes[511] |= 1);
    // The 512th slot's last bit.
    rule_1_broken(|bytes| bytes[5 * 512 - 1] |= 1);
    for count in [22, 41, 63] {
        rule_1_broken(|bytes| SECOND.entry_count.set(page_bytes_mut(bytes, 6), count));
    }
    // The first spare bit of a page's head, its last, and the sixteen bytes at
    // the end of a page.
    rule_1_broken(|bytes| page_bytes_mut(bytes, 6)[7] |= 0x80);
    rule_1_broken(|bytes| page_bytes_mut(bytes, 6)[15] |= 1);
    for at in 496..512 {
        rule_1_broken(|bytes| page_bytes_mut(bytes, 6)[at] |= 0x10);
    }
    rule_1_broken(|bytes| page_bytes_mut(bytes, 9)[511] |= 1);
}

/// The leaf root of 32 settings is made anew in each version: nine go and come
/// back, 41 entries of which 32 live.
fn many_roots(pages: usize, roots: u32) -> Vec<u8> {
    let mut bytes = fresh_second(pages);
    unjudged::open(&mut bytes);
    for key in 1..=32 {
        assert_eq!(unjudged::insert(&mut bytes, key, value_of(key)), 0);
    }
    unjudged::raw_commit(&mut bytes);
    while store::header(&bytes).roots < roots {
        unjudged::open(&mut bytes);
        assert_eq!(new_root(&mut bytes, unjudged::insert), 0);
        unjudged::raw_commit(&mut bytes);
    }
    assert_sound(&bytes);
    bytes
}

/// The number of the insert that wants the root.
fn new_root(bytes: &mut [u8], last: fn(&mut [u8], u32, u32) -> u32) -> u32 {
    for key in 1..=9 {
        assert_eq!(unjudged::delete(bytes, key), 0);
    }
    for key in 1..=8 {
        assert_eq!(unjudged::insert(bytes, key, value_of(key)), 0);
    }
    last(bytes, 9, 90)
}

#[test]
fn the_512th_slot_and_the_513th() {
    // Page 5 and 511 roots behind it take 517 pages, and the slots are full.
    let mut bytes = many_roots(518, 511);
    open(&mut bytes);
    assert_eq!(new_root(&mut bytes, calls::insert), 0);
    assert_eq!(store::header(&bytes).roots, 512);
    // Of current 511 the last bit, the flag, and 512 in ten bits.
    assert_eq!(bytes[9..11], [0xE0, 0x00]);
    assert_eq!(slots(&bytes)[511], (512, 516));
    // All slots are used, and one more is told.
    let mut damaged = bytes.clone();
    SECOND.root_count.set(&mut damaged, 513);
    assert_eq!(calls::check(&damaged), (4, 1));
    // The slot of the open version is replaced where it stands.
    commit_as_before(&mut bytes);
    open(&mut bytes);
    let before = bytes.clone();
    assert_eq!(new_root(&mut bytes, calls::insert), 13);
    assert_eq!(calls::lookup(&bytes, 9, 512), (0, true, 90));
    abandon(&mut bytes);
    assert_eq!(calls::open(&mut bytes), 0);
    assert_eq!(bytes, before);
    // With no page either, 12.
    let mut bytes = many_roots(517, 512);
    open(&mut bytes);
    assert_eq!(new_root(&mut bytes, calls::insert), 12);
}

/// "Roots stay at level 5 or lower": 4,096 pages hold one of level 5 and none of
/// level 6.
#[test]
fn roots_of_level_five() {
    let least = |levels: usize| {
        let mut fills = vec![Fill::new(8, 0); levels];
        fills[levels - 1] = Fill::new(2, 0);
        tall_of(&SECOND, &fills, Spine::Middle, 3)
    };
    assert!(least(6).is_none());
    let Tall {
        store: mut bytes,
        spine_keys,
    } = least(5).unwrap();
    assert_eq!(store::page_count(&bytes), 5 + 1 + 1171 + 3);
    assert_sound(&bytes);
    let root = walk::root(&bytes, 1);
    assert_eq!(store::level(&bytes, root), 5);
    open(&mut bytes);
    // On each level eight and seven, eight and fifteen.. are gathered in one
    // page, and the root goes.
    let before = bytes.clone();
    assert_eq!(calls::delete(&mut bytes, spine_keys[0]), 12);
    assert_eq!(bytes, before);
    let mut bytes = roomier(&before, 1);
    assert_eq!(calls::delete(&mut bytes, spine_keys[0]), 0);
    assert_sound(&bytes);
    let root = walk::root(&bytes, 2);
    assert_eq!(store::level(&bytes, root), 4);
    assert_eq!(page(&bytes, root).entries.len(), 15);
    abandon(&mut bytes);
    assert_eq!(calls::lookup(&bytes, spine_keys[0], 1).1, true);
}

/// The other way: full pages from the leaf to a root of level 4 split.
#[test]
fn a_root_of_level_four_splits() {
    let built = tall_of(&SECOND, &[Fill::new(40, 0); 4], Spine::Last, 9).unwrap();
    let mut bytes = built.store;
    assert_sound(&bytes);
    open(&mut bytes);
    assert_eq!(calls::insert(&mut bytes, built.spine_keys[0] + 1, 1), 0);
    assert_sound(&bytes);
    let root = walk::root(&bytes, 2);
    assert_eq!(store::level(&bytes, root), 5);
    let routers = page(&bytes, root).entries;
    let below: Vec<usize> = routers
        .iter()
        .map(|router| page(&bytes, router.value).entries.len())
        .collect();
    assert_eq!(below, [21, 20]);
    let mut pages = [0; 5];
    assert_eq!(calls::visits(&bytes, 0, 2, &mut pages), (0, 5));
    assert_eq!(calls::visits(&bytes, 0, 1, &mut pages), (0, 4));
}

#[test]
fn sizes_and_wrong_lengths() {
    for pages in [6, 7, 4095, 4096] {
        let bytes = fresh_second(pages);
        assert_sound(&bytes);
        let count = at::PAGE_COUNT.get(&bytes);
        assert_eq!(count as usize, pages);
    }
    let any = |length: usize| vec![0xA5; length];
    for length in [
        0,
        1,
        511,
        512,
        5 * 512,
        6 * 512 - 1,
        6 * 512 + 256,
        4097 * 512,
    ] {
        let mut bytes = any(length);
        assert_eq!(calls::fresh_second(&mut bytes), 1, "{length}");
        assert_eq!(bytes, any(length));
    }
    // By the edition that is to be made, whatever the bytes name.
    let mut bytes = fresh(6);
    assert_eq!(calls::fresh_second(&mut bytes), 1);
    assert_eq!(bytes, fresh(6));
    let mut bytes = fresh_second(6);
    assert_eq!(calls::fresh(&mut bytes), 0);
    assert_eq!(bytes, fresh(12));
    assert_eq!(calls::fresh_second(&mut bytes), 0);
    assert_eq!(bytes, fresh_second(6));
}

/// Every call gives this number, and leaves store and list alone.
fn all_give(bytes: &[u8], number: u32) {
    let mut lent = bytes.to_vec();
    let (one, two) = (u32::MAX, &mut [7; 3]);
    assert_eq!(calls::check(bytes).0, number);
    assert_eq!(calls::open(&mut lent), number);
    assert_eq!(calls::insert(&mut lent, one, 1), number);
    assert_eq!(calls::delete(&mut lent, one), number);
    assert_eq!(calls::commit(&mut lent), number);
    assert_eq!(calls::abandon(&mut lent), number);
    assert_eq!(calls::return_to(&mut lent, one), number);
    assert_eq!(calls::lookup(bytes, one, one), (number, false, 0));
    assert_eq!(calls::range(bytes, one, 0, one, two), (number, 0));
    assert_eq!(calls::visits(bytes, one, one, two), (number, 0));
    assert_eq!(calls::difference(bytes, one, one, two), (number, 0));
    assert_eq!(calls::life(bytes, one, two), (number, 0));
    assert_eq!((lent.as_slice(), *two), (bytes, [7; 3]));
}

/// "Fewer than five bytes gives 1; otherwise 2, then 3, then 1 by the edition's
/// page size, then the rest as before."
#[test]
fn the_new_order_of_refusals() {
    for length in 0..5 {
        all_give(&[0xFF; 4][..length.min(4)], 1);
        all_give(&b"RCST"[..length.min(4)], 1);
    }
    for length in [5, 11, 256, 6 * 256, 6 * 256 + 1, 6 * 512] {
        let mut bytes = vec![0; length];
        all_give(&bytes, 2);
        bytes[..4].copy_from_slice(b"RCST");
        for edition in [0, 3, 255] {
            bytes[4] = edition;
            all_give(&bytes, 3);
        }
        for (edition, page) in [(1, 256), (2, 512)] {
            bytes[4] = edition;
            let fits = length % page == 0 && length >= 6 * page;
            all_give(&bytes, if fits { 4 } else { 1 });
        }
        bytes[3] = 0;
        all_give(&bytes, 2);
    }
}

/// 4,096 pages are the most of either edition, by its own page size.
#[test]
fn the_longest_stores() {
    let mut long = vec![0; 4097 * 256];
    long[..5].copy_from_slice(b"RCST\x01");
    all_give(&long, 1);
    long.resize(4096 * 512, 0);
    all_give(&long, 1);
    long[4] = 2;
    all_give(&long, 4);
    long.resize(4097 * 512, 0);
    all_give(&long, 1);
    long[4] = 9;
    all_give(&long, 3);
}

/// "Programs of edition 1 give 1 or 3 and never an answer."
#[test]
fn programs_of_edition_1_on_edition_2() {
    for seed in 0..60 {
        let bytes = second_store(seed);
        assert_eq!(Edition::of(&bytes), &SECOND);
        assert_eq!(judge_as_edition_1(&bytes), (3, 0), "seed {seed}");
        let old = sound_store(seed);
        assert_eq!(judge_as_edition_1(&old), calls::check(&old));
    }
    for (pages, number) in [(6, 3), (2048, 3), (2049, 1), (4096, 1)] {
        assert_eq!(judge_as_edition_1(&fresh_second(pages)), (number, 0));
    }
}

/// Every call of document 02 on edition 2.
#[test]
fn the_requests_before_it() {
    let mut bytes = p2(16);
    commit(&mut bytes);
    open(&mut bytes);
    assert_eq!(calls::commit(&mut bytes), 15);
    delete_all(&mut bytes, 22..=34);
    assert_eq!(calls::insert(&mut bytes, 16_776_960, 1), 5);
    assert_eq!(calls::insert(&mut bytes, 30, 7), 0);
    commit(&mut bytes);
    let mut list = [9; 7];
    assert_eq!(calls::life(&bytes, 30, &mut list), (0, 2));
    assert_eq!(list, [1, 2, 300, 2, ALIVE, 7, 9]);
    let mut list = [9; 53];
    assert_eq!(calls::difference(&bytes, 1, 2, &mut list), (0, 13));
    assert_eq!(list[..4], [22, 1, 220, 0]);
    assert_eq!(list[32..36], [30, 2, 300, 7]);
    assert_eq!(list[52], 9);
    open(&mut bytes);
    assert_eq!(calls::return_to(&mut bytes, 1), 0);
    assert_sound(&bytes);
    let settings = |version| walk::settings(&bytes, version);
    assert_eq!(settings(3), settings(1));
    assert_eq!(Image::read(&bytes).header.edition, &SECOND);
}

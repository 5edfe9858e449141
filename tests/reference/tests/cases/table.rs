//! Document 01's own examples: the fresh bytes, P1 to P12, and "Also run".

use crate::calls;
use crate::common::*;
use reference::calls::raw_insert;
use reference::layout::ALIVE;
use reference::store::{self, page, page_bytes};

#[test]
fn fresh_six_pages_byte_for_byte() {
    let bytes = fresh(6);
    let mut expected = vec![0; 6 * 256];
    expected[..11].copy_from_slice(&[
        0x52, 0x43, 0x53, 0x54, 0x01, 0x00, 0x30, 0x00, 0x00, 0x00, 0x20,
    ]);
    expected[256..260].copy_from_slice(&[0, 0, 0, 5]);
    expected[5 * 256..5 * 256 + 7].copy_from_slice(&[0x10, 0, 0, 0x07, 0xFF, 0xFF, 0x80]);
    assert_eq!(bytes, expected);
    assert_sound(&bytes);
}

#[test]
fn key_40_entry_bytes() {
    let mut bytes = fresh(6);
    open(&mut bytes);
    assert_eq!(calls::insert(&mut bytes, 40, 7), 0);
    let entry = &page_bytes(&bytes, 5)[16..28];
    let expected = [
        0x00, 0x00, 0x28, 0x00, 0x00, 0x1F, 0xFF, 0xFF, 0x00, 0x00, 0x00, 0x07,
    ];
    assert_eq!(entry, expected);
}

/// Keys 1 to 20 inserted in version 1 of a fresh store.
fn p1(pages: usize) -> Vec<u8> {
    opened_with(fresh(pages), 1..=20)
}

fn p2(pages: usize) -> Vec<u8> {
    opened_with(fresh(pages), 1..=21)
}

fn p6() -> Vec<u8> {
    let mut bytes = p2(16);
    delete_all(&mut bytes, 12..=18);
    bytes
}

#[test]
fn p1_all_20_stand_in_page_5() {
    let bytes = p1(16);
    let five = page(&bytes, 5);
    assert_eq!((five.level, span(&five)), (1, (0, ALIVE)));
    keys_from(&five, 1..=20, 1);
    assert!((6..16).all(|number| page(&bytes, number).is_free()));
    assert_eq!(slots(&bytes), [(0, 5)]);
}

#[test]
fn p2_key_21_splits_the_root() {
    let bytes = p2(16);
    let (six, seven, eight) = (page(&bytes, 6), page(&bytes, 7), page(&bytes, 8));
    keys_from(&six, 1..=11, 1);
    keys_from(&seven, 12..=21, 1);
    for (page, level) in [(&six, 1), (&seven, 1), (&eight, 2)] {
        assert_eq!((page.level, span(page)), (level, (1, ALIVE)));
    }
    assert_eq!(
        eight.entries,
        [entry(0, 1, ALIVE, 6), entry(12, 1, ALIVE, 7)]
    );
    let five = page(&bytes, 5);
    assert_eq!((span(&five), five.entries.len()), ((0, 1), 0));
    assert_eq!(slots(&bytes), [(0, 5), (1, 8)]);
    assert!((9..16).all(|number| page(&bytes, number).is_free()));
}

#[test]
fn p3_eight_pages_are_too_few() {
    let mut bytes = p1(8);
    let before = bytes.clone();
    assert_eq!(calls::insert(&mut bytes, 21, 210), 12);
    assert_eq!(bytes, before);
}

#[test]
fn p4_nine_pages_are_enough() {
    let bytes = p2(9);
    assert_eq!(slots(&bytes), [(0, 5), (1, 8)]);
}

#[test]
fn p5_page_7_keeps_four() {
    let mut bytes = p2(16);
    delete_all(&mut bytes, 12..=17);
    keys_from(&page(&bytes, 7), 18..=21, 1);
    assert_eq!(slots(&bytes), [(0, 5), (1, 8)]);
}

#[test]
fn p6_the_root_goes() {
    let bytes = p6();
    let six = page(&bytes, 6);
    let keys: Vec<u32> = (1..=11).chain(19..=21).collect();
    assert_eq!(live_keys(&six, 1), keys);
    assert_eq!(six.entries.len(), 14);
    assert!(page(&bytes, 7).is_free() && page(&bytes, 8).is_free());
    assert!(page_bytes(&bytes, 7).iter().all(|byte| *byte == 0));
    assert!(page_bytes(&bytes, 8).iter().all(|byte| *byte == 0));
    assert_eq!(slots(&bytes), [(0, 5), (1, 6)]);
}

#[test]
fn p7_abandon_gives_the_fresh_bytes() {
    let mut bytes = p6();
    abandon(&mut bytes);
    assert_eq!(bytes, fresh(16));
}

fn p8() -> Vec<u8> {
    let mut bytes = p2(16);
    commit(&mut bytes);
    open(&mut bytes);
    delete_all(&mut bytes, 12..=18);
    bytes
}

#[test]
fn p8_the_same_in_a_second_version() {
    let bytes = p8();
    let nine = page(&bytes, 9);
    let keys: Vec<u32> = (1..=11).chain(19..=21).collect();
    assert_eq!(live_keys(&nine, 2), keys);
    assert_eq!((nine.entries.len(), span(&nine)), (14, (2, ALIVE)));
    for number in 6..=8 {
        assert_eq!(span(&page(&bytes, number)), (1, 2));
    }
    assert_eq!(slots(&bytes), [(0, 5), (1, 8), (2, 9)]);
    assert!((10..16).all(|number| page(&bytes, number).is_free()));
}

#[test]
fn p9_key_15_is_found_at_1_and_absent_at_2() {
    let bytes = p8();
    assert_eq!(calls::lookup(&bytes, 15, 1), (0, true, 150));
    assert_eq!(calls::lookup(&bytes, 15, 2), (0, false, 0));
}

fn p1_committed_and_opened() -> Vec<u8> {
    let mut bytes = p1(16);
    commit(&mut bytes);
    open(&mut bytes);
    bytes
}

#[test]
fn p10_seventeen_live_make_nine_and_eight() {
    let mut bytes = p1_committed_and_opened();
    delete_all(&mut bytes, 1..=4);
    insert_all(&mut bytes, [30]);
    assert_eq!(
        live_keys(&page(&bytes, 6), 2),
        [5, 6, 7, 8, 9, 10, 11, 12, 13]
    );
    assert_eq!(
        live_keys(&page(&bytes, 7), 2),
        [14, 15, 16, 17, 18, 19, 20, 30]
    );
    assert_eq!(live_pairs(&page(&bytes, 8), 2), [(0, 6), (14, 7)]);
    assert_eq!(slots(&bytes), [(0, 5), (2, 8)]);
}

#[test]
fn p11_sixteen_live_make_one_page() {
    let mut bytes = p1_committed_and_opened();
    delete_all(&mut bytes, 1..=5);
    insert_all(&mut bytes, [30]);
    let six = page(&bytes, 6);
    assert_eq!((six.entries.len(), span(&six)), (16, (2, ALIVE)));
    assert_eq!(span(&page(&bytes, 5)), (0, 2));
    assert_eq!(page(&bytes, 5).entries.len(), 20);
    assert_eq!(slots(&bytes), [(0, 5), (2, 6)]);
    assert!(page(&bytes, 7).is_free());
}

#[test]
fn p12_delete_and_insert_again() {
    let mut bytes = p1(16);
    commit(&mut bytes);
    let before = bytes.clone();
    open(&mut bytes);
    delete_all(&mut bytes, [1]);
    insert_all(&mut bytes, [1]);
    assert_eq!(live_keys(&page(&bytes, 6), 2), (1..=10).collect::<Vec<_>>());
    assert_eq!(
        live_keys(&page(&bytes, 7), 2),
        (11..=20).collect::<Vec<_>>()
    );
    assert_eq!(live_pairs(&page(&bytes, 8), 2), [(0, 6), (11, 7)]);
    assert_eq!(slots(&bytes), [(0, 5), (2, 8)]);
    abandon(&mut bytes);
    assert_eq!(bytes, before);
}

#[test]
fn highest_key_and_one_more() {
    let mut bytes = fresh(6);
    open(&mut bytes);
    // Both are refused since 2026-06; the first went in before.
    assert_eq!(calls::insert(&mut bytes, 16_777_215, 1), 5);
    assert_eq!(calls::insert(&mut bytes, 16_777_216, 1), 5);
    assert_eq!(raw_insert(&mut bytes, 16_777_215, 1), 0);
    assert_eq!(raw_insert(&mut bytes, 16_777_216, 1), 5);
    assert_eq!(calls::lookup(&bytes, 16_777_215, 1), (0, true, 1));
    assert_eq!(calls::lookup(&bytes, 16_777_216, 1), (5, false, 0));
    let mut list = [9; 2];
    assert_eq!(calls::range(&bytes, 0, 16_777_215, 1, &mut list), (0, 1));
    assert_eq!(list, [16_777_215, 1]);
    assert_eq!(calls::range(&bytes, 0, 16_777_216, 1, &mut list), (5, 0));
    assert_eq!(calls::delete(&mut bytes, 16_777_216), 5);
    assert_eq!(calls::delete(&mut bytes, 16_777_215), 0);
}

#[test]
fn last_version_and_one_more() {
    let mut bytes = p1(16);
    for (last, open) in [(1, true), (1, false)] {
        assert_eq!(store::header(&bytes).open, open);
        assert_eq!(calls::lookup(&bytes, 3, last), (0, true, 30));
        assert_eq!(calls::lookup(&bytes, 3, last + 1), (6, false, 0));
        assert_eq!(calls::range(&bytes, 3, 3, last, &mut [0; 2]), (0, 1));
        assert_eq!(calls::range(&bytes, 3, 3, last + 1, &mut [0; 2]), (6, 0));
        if open {
            commit(&mut bytes);
        }
    }
}

#[test]
fn a_list_one_number_short() {
    let bytes = p1(16);
    let mut list = [7; 39];
    assert_eq!(calls::range(&bytes, 0, 100, 1, &mut list), (14, 20));
    assert_eq!(list, [7; 39]);
    let mut list = [7; 41];
    assert_eq!(calls::range(&bytes, 0, 100, 1, &mut list), (0, 20));
    assert_eq!(list[38..], [20, 200, 7]);
}

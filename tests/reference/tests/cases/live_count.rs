//! The live count of edition 2 (2026-09): six bits right after a page's end, the
//! number of entries alive at the last version.

use crate::calls;
use crate::common::build::*;
use crate::common::*;
use reference::edition::SECOND;
use reference::image::Image;
use reference::layout::{Page, Span, ALIVE};
use reference::samples::{second_store, sound_store};
use reference::store::{self, page_bytes, page_bytes_mut};

/// Bits 50 to 55 of a page.
fn told(bytes: &[u8], number: u32) -> u8 {
    page_bytes(bytes, number)[6] & 0x3F
}

fn set(bytes: &mut [u8], number: u32, count: u8) {
    let byte = &mut page_bytes_mut(bytes, number)[6];
    *byte = *byte & 0xC0 | count;
}

/// The counts of all pages, told and counted by the entries that stand there.
fn all_right(bytes: &[u8]) {
    for number in store::page_numbers(bytes) {
        let page = store::page(bytes, number);
        let live = page.entries.iter().filter(|e| e.span.end == ALIVE).count();
        assert_eq!(usize::from(told(bytes, number)), live, "page {number}");
    }
    assert_sound(bytes);
}

fn twelve_pages() -> Vec<u8> {
    let mut bytes = fresh_second(12);
    open(&mut bytes);
    insert_all(&mut bytes, 1..=40);
    bytes
}

#[test]
fn inserts_and_deletes_count() {
    let mut bytes = fresh_second(12);
    assert_eq!(told(&bytes, 5), 0);
    open(&mut bytes);
    for key in 1..=40u8 {
        assert_eq!(calls::insert(&mut bytes, u32::from(key), 1), 0);
        assert_eq!(told(&bytes, 5), key);
    }
    // An entry of the same update is removed, an older one is ended: either way
    // one fewer lives.
    delete_all(&mut bytes, [7]);
    assert_eq!(told(&bytes, 5), 39);
    commit(&mut bytes);
    assert_eq!(told(&bytes, 5), 39);
    open(&mut bytes);
    assert_eq!(told(&bytes, 5), 39);
    delete_all(&mut bytes, [8, 9]);
    assert_eq!(store::page(&bytes, 5).entries.len(), 39);
    assert_eq!(told(&bytes, 5), 37);
    insert_all(&mut bytes, [8]);
    assert_eq!(told(&bytes, 5), 38);
    all_right(&bytes);
}

/// "A killed page has 0", and pages that splits and merges make have their own.
#[test]
fn splits_and_merges_count() {
    let mut bytes = twelve_pages();
    insert_all(&mut bytes, [41]);
    assert_eq!([5, 6, 7, 8].map(|n| told(&bytes, n)), [0, 21, 20, 2]);
    commit(&mut bytes);
    open(&mut bytes);
    delete_all(&mut bytes, 22..=34);
    // Pages 6, 7 and 8 are killed and keep their entries.
    assert_eq!([6, 7, 8, 9].map(|n| told(&bytes, n)), [0, 0, 0, 28]);
    assert_eq!(store::page(&bytes, 6).entries.len(), 21);
    all_right(&bytes);
}

/// "Abandon restores it": on pages that were killed, on those that lost or got
/// entries, and on those that are freed.
#[test]
fn abandon_restores_it() {
    let mut bytes = twelve_pages();
    insert_all(&mut bytes, [41]);
    commit(&mut bytes);
    let before = bytes.clone();
    open(&mut bytes);
    delete_all(&mut bytes, 22..=34);
    insert_all(&mut bytes, [50]);
    abandon(&mut bytes);
    assert_eq!(bytes, before);
    assert_eq!([5, 6, 7, 8, 9].map(|n| told(&bytes, n)), [0, 21, 20, 2, 0]);
    // Where an insert and a delete leave the count as it was.
    open(&mut bytes);
    delete_all(&mut bytes, [1]);
    insert_all(&mut bytes, [1]);
    abandon(&mut bytes);
    assert_eq!(bytes, before);
}

/// A return and the commit of an update that changed pages count as their single
/// calls do; a conversion writes counts from the start.
#[test]
fn returns_and_conversions_count() {
    let mut source = fresh(40);
    let mut target = fresh_second(40);
    for bytes in [&mut source, &mut target] {
        open(bytes);
        insert_all(bytes, 1..=70);
        commit(bytes);
        open(bytes);
        delete_all(bytes, 10..=60);
        commit(bytes);
        open(bytes);
        assert_eq!(calls::return_to(bytes, 1), 0);
        commit(bytes);
    }
    all_right(&target);
    let mut converted = vec![0xEE; 40 * 512];
    assert_eq!(calls::convert(&source, &mut converted), 0);
    all_right(&converted);
    assert_eq!(converted, target);
}

/// Rule 8: whatever else the six bits say.
#[test]
fn every_other_count_is_rule_8() {
    let bytes = twelve_pages();
    for count in (0..64).filter(|count| *count != 40) {
        let mut damaged = bytes.clone();
        set(&mut damaged, 5, count);
        assert_eq!(calls::check(&damaged), (4, 8), "{count}");
        // Every call that judges the whole store.
        let before = damaged.clone();
        assert_eq!(calls::insert(&mut damaged, 50, 1), 4);
        assert_eq!(calls::delete(&mut damaged, 1), 4);
        assert_eq!(calls::open(&mut damaged), 4);
        assert_eq!(calls::commit(&mut damaged), 4);
        assert_eq!(calls::abandon(&mut damaged), 4);
        assert_eq!(calls::return_to(&mut damaged, 0), 4);
        assert_eq!(calls::prune(&mut damaged, 0), 4);
        assert_eq!(calls::state(&damaged), (4, Default::default()));
        assert_eq!(calls::visits(&damaged, 1, 1, &mut [0; 5]), (4, 0));
        assert_eq!(calls::life(&damaged, 1, &mut [0; 3]), (4, 0));
        assert_eq!(calls::difference(&damaged, 0, 1, &mut []), (4, 0));
        // Reading 04.2: a lookup and a range do not ask for it.
        assert_eq!(calls::lookup(&damaged, 7, 1), (0, true, 70));
        assert_eq!(calls::range(&damaged, 7, 8, 1, &mut [0; 4]), (0, 2));
        assert_eq!(damaged, before);
    }
}

/// On a leaf, an index page, a killed leaf and a killed index page, reached at the
/// last version, at an older one, or, behind the oldest version, at none: every
/// number but the right one, 41 to 63 too.
#[test]
fn every_other_count_on_pages_of_every_kind() {
    let mut bytes = twelve_pages();
    insert_all(&mut bytes, [41]);
    commit(&mut bytes);
    open(&mut bytes);
    delete_all(&mut bytes, 22..=34);
    insert_all(&mut bytes, 50..=70);
    commit(&mut bytes);
    let mut expired = Image::read(&bytes);
    expired.header.oldest = 2;
    expired.slots.drain(..2);
    let levels = [5, 6, 8, 9, 11].map(|number| store::level(&bytes, number));
    assert_eq!(levels, [1, 1, 2, 1, 2]);
    for bytes in [bytes, expired.write()] {
        assert_sound(&bytes);
        for (number, right) in [(5, 0), (6, 0), (8, 0), (9, 21), (11, 2)] {
            assert_eq!(told(&bytes, number), right, "page {number}");
            for count in (0..64).filter(|count| *count != right) {
                let mut damaged = bytes.clone();
                set(&mut damaged, number, count);
                assert_eq!(calls::check(&damaged), (4, 8), "page {number}: {count}");
                assert_eq!(calls::open(&mut damaged), 4);
                assert_eq!(calls::prune(&mut damaged, 2), 4);
                assert_eq!(calls::lookup(&damaged, 7, 2), (0, true, 70));
            }
        }
    }
}

/// Reading 09.2: a free page with one is wrong by rule 1, for a lookup too.
#[test]
fn a_free_page_has_none() {
    let mut bytes = twelve_pages();
    set(&mut bytes, 9, 1);
    assert_eq!(calls::check(&bytes), (4, 1));
    assert_eq!(calls::lookup(&bytes, 7, 1), (0, true, 70));
}

/// Rule 8 is tested last, and on pages that no version reaches it is rule 6 that
/// is broken.
#[test]
fn every_other_rule_comes_first() {
    let pages = || {
        vec![
            leaf(1, ALIVE, 0..8),
            leaf(1, ALIVE, 1000..1008),
            index(1, ALIVE, &[(0, 6), (1000, 7)]),
            Page::free(),
        ]
    };
    let rule = |change: fn(&mut Image)| {
        let mut image = image_of(&SECOND, 1, false, &[(1, 8)], pages());
        change(&mut image);
        let mut bytes = image.write();
        set(&mut bytes, 7, 3);
        calls::check(&bytes)
    };
    assert_eq!(rule(|_| {}), (4, 8));
    assert_eq!(rule(|image| image.page_mut(6).span.start = 9), (4, 1));
    assert_eq!(rule(|image| image.slots[1].version = 0), (4, 2));
    assert_eq!(rule(|image| image.page_mut(8).entries[0].value = 9), (4, 3));
    assert_eq!(
        rule(|image| image.page_mut(6).entries[7].key = 1000),
        (4, 4)
    );
    assert_eq!(rule(|image| image.page_mut(6).entries.truncate(7)), (4, 5));
    let stray =
        |image: &mut Image| *image.page_mut(9) = Page::new(1, Span::alive_from(0), Vec::new());
    assert_eq!(rule(stray), (4, 6));
}

/// "Alive at the last version": what ended at the open version is dead there.
#[test]
fn alive_at_the_open_version() {
    let mut image = image_of(&SECOND, 1, true, &[(1, 6)], vec![leaf(1, ALIVE, 0..9)]);
    image.page_mut(6).entries[0].span.end = 2;
    let mut bytes = image.write();
    assert_eq!(told(&bytes, 6), 8);
    assert_sound(&bytes);
    // Once it is abandoned they are nine.
    abandon(&mut bytes);
    assert_eq!(told(&bytes, 6), 9);
    all_right(&bytes);
}

/// Edition 1 stays as it is: its bits there are zero bits.
#[test]
fn edition_1_has_none() {
    for seed in 0..40 {
        let bytes = sound_store(seed);
        for number in store::page_numbers(&bytes) {
            let mut damaged = bytes.clone();
            page_bytes_mut(&mut damaged, number)[6] |= 0x04;
            assert_eq!(calls::check(&damaged), (4, 1));
        }
        all_right(&second_store(seed));
    }
}

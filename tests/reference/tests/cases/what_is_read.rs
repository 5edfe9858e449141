//! Lookups and ranges judge only what they read (2026-04).

use crate::calls;
use crate::common::build::*;
use crate::common::*;
use reference::image::Image;
use reference::layout::{Header, Page, Slot, Span, ALIVE, HIGHEST_KEY};
use reference::samples::sound_store;
use reference::{store, unjudged, walk};

const UNSOUND: (u32, bool, u32) = (4, false, 0);
const ABSENT: (u32, bool, u32) = (0, false, 0);

fn found(value: u32) -> (u32, bool, u32) {
    (0, true, value)
}

/// Three leaves under a root from version 1 on. Version 3 is the current one.
fn under_one_root() -> Image {
    image(3, false, &[(1, 9)], three_under_a_root())
}

/// The store with its pages and slots changed.
fn changed(image: &Image, change: impl FnOnce(&mut Image)) -> Vec<u8> {
    let mut image = image.clone();
    change(&mut image);
    image.write()
}

/// The keys that a range gives; the list holds just as many numbers.
fn ranged(bytes: &[u8], low: u32, high: u32, version: u32) -> Vec<u32> {
    let (number, count) = calls::range(bytes, low, high, version, &mut []);
    assert!(matches!((number, count), (0, 0) | (14, 1..)), "{number}");
    let mut list = vec![7; 2 * count as usize + 1];
    assert_eq!(
        calls::range(bytes, low, high, version, &mut list),
        (0, count)
    );
    assert_eq!(list.pop(), Some(7));
    list.chunks_exact(2).map(|pair| pair[0]).collect()
}

/// A range that is refused writes nothing, however long the list is.
fn range_refused(bytes: &[u8], low: u32, high: u32, version: u32) -> u32 {
    let mut list = [7; 50];
    let (number, count) = calls::range(bytes, low, high, version, &mut list);
    assert_eq!((count, list), (0, [7; 50]), "{low} to {high} at {version}");
    assert_eq!(
        calls::range(bytes, low, high, version, &mut []),
        (number, 0)
    );
    number
}

#[test]
fn damage_off_the_walk_is_no_matter() {
    let mut bytes = under_one_root().write();
    assert_sound(&bytes);
    // A leaf, a free page and version 0's root.
    bytes[7 * 256..8 * 256].fill(0xFF);
    bytes[10 * 256 + 200] = 1;
    bytes[5 * 256 + 9] = 1;
    assert_eq!(calls::lookup(&bytes, 10, 1), found(100));
    assert_eq!(calls::lookup(&bytes, 99, 3), ABSENT);
    assert_eq!(calls::lookup(&bytes, 200, 3), found(2000));
    assert_eq!(ranged(&bytes, 0, 99, 2), [10, 20, 30, 40]);
    assert_eq!(ranged(&bytes, 200, HIGHEST_KEY, 2), [200, 210, 220, 230]);
    // On the walk it is.
    assert_eq!(calls::lookup(&bytes, 100, 1), UNSOUND);
    assert_eq!(calls::lookup(&bytes, 199, 1), UNSOUND);
    assert_eq!(calls::lookup(&bytes, 1, 0), UNSOUND);
    assert_eq!(range_refused(&bytes, 0, 100, 1), 4);
    assert_eq!(range_refused(&bytes, 199, 199, 1), 4);
    assert_eq!(range_refused(&bytes, 0, 10, 0), 4);
}

/// Reading 04.8; visits stay with the whole check too.
#[test]
fn the_other_calls_keep_the_whole_check() {
    let mut bytes = under_one_root().write();
    bytes[10 * 256 + 200] = 1;
    let before = bytes.clone();
    assert_eq!(calls::check(&bytes), (4, 1));
    assert_eq!(calls::visits(&bytes, 10, 1, &mut [0; 9]), (4, 0));
    assert_eq!(calls::difference(&bytes, 1, 1, &mut []), (4, 0));
    assert_eq!(calls::life(&bytes, 10, &mut [0; 9]), (4, 0));
    assert_eq!(calls::open(&mut bytes), 4);
    assert_eq!(calls::insert(&mut bytes, 1, 1), 4);
    assert_eq!(calls::delete(&mut bytes, 1), 4);
    assert_eq!(calls::commit(&mut bytes), 4);
    assert_eq!(calls::abandon(&mut bytes), 4);
    assert_eq!(calls::return_to(&mut bytes, 0), 4);
    assert_eq!(bytes, before);
    assert_eq!(calls::lookup(&bytes, 10, 1), found(100));
}

/// Reading 04.1: every bit of page 0 and of the directory, before 5 and 6.
#[test]
fn the_header_and_all_slots_are_judged_first() {
    let sound = under_one_root().write();
    let bits = (83..2048).chain(2048 + 2 * 32..5 * 2048);
    for bit in bits
        .step_by(7)
        .chain([83, 2047, 2048 + 2 * 32, 5 * 2048 - 1])
    {
        let mut bytes = sound.clone();
        bytes[bit / 8] ^= 0x80 >> (bit % 8);
        assert_eq!(calls::lookup(&bytes, 10, 1), UNSOUND, "bit {bit}");
        assert_eq!(calls::lookup(&bytes, 1 << 24, 4), UNSOUND);
        assert_eq!(range_refused(&bytes, 2, 1, 4), 4);
        assert_eq!(range_refused(&bytes, 0, 1, 0), 4);
    }
    // The page count, an update that is open at the last version, no root.
    let changes: [fn(&mut Header); 6] = [
        |header| header.page_count += 1,
        |header| header.current = ALIVE,
        |header| (header.current, header.open) = (ALIVE - 1, true),
        |header| header.roots = 0,
        |header| header.roots = 1,
        |header| header.roots = 257,
    ];
    for change in changes {
        let mut bytes = sound.clone();
        let mut header = store::header(&bytes);
        change(&mut header);
        store::write_header(&mut bytes, header);
        assert_eq!(calls::lookup(&bytes, 10, 0), UNSOUND);
        assert_eq!(range_refused(&bytes, 9, 8, 9), 4);
    }
}

#[test]
fn a_wrong_slot_that_is_not_the_versions() {
    let slot = |version, root| Slot { version, root };
    let with = |slots: &[Slot]| changed(&under_one_root(), |image| image.slots.extend(slots));
    let good = with(&[slot(2, 9), slot(3, 9)]);
    assert_eq!(calls::lookup(&good, 10, 1), found(100));
    let wrong = [
        [slot(2, 4), slot(3, 9)],
        [slot(2, 0), slot(3, 9)],
        [slot(2, 9), slot(3, 11)],
        [slot(2, 9), slot(3, 4095)],
        [slot(2, 9), slot(2, 9)],
        [slot(3, 9), slot(2, 9)],
        [slot(1, 9), slot(3, 9)],
        [slot(2, 9), slot(4, 9)],
        [slot(2, 9), slot(ALIVE, 9)],
    ];
    for slots in wrong {
        let bytes = with(&slots);
        for (key, version) in [(10, 0), (10, 1), (1 << 24, 1), (10, 9)] {
            assert_eq!(calls::lookup(&bytes, key, version), UNSOUND, "{slots:?}");
        }
        assert_eq!(range_refused(&bytes, 0, 50, 1), 4);
    }
    let mut late = under_one_root();
    late.slots[0].version = 1;
    late.slots.remove(1);
    assert_eq!(calls::lookup(&late.write(), 10, 3), UNSOUND);
    // A free page is the matter of its own versions alone.
    let bytes = with(&[slot(2, 10), slot(3, 9)]);
    assert_eq!(calls::check(&bytes), (4, 3));
    assert_eq!(calls::lookup(&bytes, 10, 1), found(100));
    assert_eq!(calls::lookup(&bytes, 10, 2), UNSOUND);
    assert_eq!(calls::lookup(&bytes, 10, 3), found(100));
}

#[test]
fn a_free_root() {
    let free = Slot {
        version: 3,
        root: 10,
    };
    let bytes = changed(&under_one_root(), |image| image.slots.push(free));
    assert_eq!(calls::lookup(&bytes, 10, 3), UNSOUND);
    assert_eq!(range_refused(&bytes, 0, 10, 3), 4);
    assert_eq!(calls::lookup(&bytes, 10, 2), found(100));
    assert_eq!(ranged(&bytes, 0, 99, 2), [10, 20, 30, 40]);
    // Level 0, and a bit set behind it.
    let mut bytes = bytes;
    bytes[10 * 256 + 255] = 1;
    assert_eq!(calls::lookup(&bytes, 10, 3), UNSOUND);
}

/// Reading 04.3: "any level from 1 to 7 is taken as it stands".
#[test]
fn a_root_of_any_level() {
    // Page 5 + n has level n and one router, to the page before it.
    let mut pages = vec![leaf(1, ALIVE, [7])];
    for level in 2..=7 {
        let router = entry(0, 1, ALIVE, 4 + level);
        pages.push(Page::new(level, Span::alive_from(1), vec![router]));
    }
    let slots: Vec<(u32, u32)> = (1..=7).map(|level| (level, 5 + level)).collect();
    let bytes = image(9, false, &slots, pages).write();
    for version in 1..=9 {
        assert_eq!(calls::lookup(&bytes, 7, version), found(70));
        assert_eq!(calls::lookup(&bytes, 8, version), ABSENT);
        assert_eq!(ranged(&bytes, 0, HIGHEST_KEY, version), [7]);
    }
    assert_eq!(calls::check(&bytes).0, 4);
    // A leaf that is another page's child.
    let bytes = changed(&under_one_root(), |image| {
        image.slots.push(Slot {
            version: 2,
            root: 7,
        })
    });
    assert_eq!(calls::lookup(&bytes, 100, 2), found(1000));
    assert_eq!(calls::lookup(&bytes, 10, 2), ABSENT);
    assert_eq!(ranged(&bytes, 0, HIGHEST_KEY, 2), [100, 110, 120, 130]);
}

#[test]
fn a_childs_level() {
    let base = under_one_root();
    // A leaf where an index page is due.
    let bytes = changed(&base, |image| image.page_mut(9).level = 3);
    for key in [0, 10, 100, 200, HIGHEST_KEY] {
        assert_eq!(calls::lookup(&bytes, key, 1), UNSOUND);
        assert_eq!(range_refused(&bytes, key, key, 1), 4);
    }
    // An index page where a leaf is due, and a free page.
    for child in [9, 10] {
        let bytes = changed(&base, |image| image.page_mut(9).entries[1].value = child);
        assert_eq!(calls::lookup(&bytes, 99, 1), found_or_absent(99));
        assert_eq!(calls::lookup(&bytes, 100, 1), UNSOUND);
        assert_eq!(calls::lookup(&bytes, 199, 1), UNSOUND);
        assert_eq!(calls::lookup(&bytes, 210, 1), found(2100));
        assert_eq!(ranged(&bytes, 20, 99, 1), [20, 30, 40]);
        assert_eq!(range_refused(&bytes, 20, 100, 1), 4);
        assert_eq!(range_refused(&bytes, 150, 220, 1), 4);
        assert_eq!(ranged(&bytes, 205, 220, 1), [210, 220]);
    }
    // A child two levels lower, and one that is higher.
    for level in [4, 5, 7] {
        let top = Page::new(level, Span::alive_from(1), vec![entry(0, 1, ALIVE, 9)]);
        let bytes = changed(&base, |image| {
            image.pages.push(top);
            image.slots[1].root = 11;
        });
        assert_eq!(calls::lookup(&bytes, 10, 1), UNSOUND);
        assert_eq!(range_refused(&bytes, 0, 0, 1), 4);
    }
}

fn found_or_absent(key: u32) -> (u32, bool, u32) {
    let there = [10, 20, 30, 40].contains(&key);
    if there {
        found(10 * key)
    } else {
        ABSENT
    }
}

#[test]
fn no_router_at_or_below_the_key() {
    let bytes = changed(&under_one_root(), |image| {
        image.page_mut(9).entries[0].key = 25;
    });
    assert_eq!(calls::lookup(&bytes, 24, 1), UNSOUND);
    assert_eq!(calls::lookup(&bytes, 0, 1), UNSOUND);
    assert_eq!(calls::lookup(&bytes, 25, 1), ABSENT);
    assert_eq!(calls::lookup(&bytes, 30, 1), found(300));
    // A range's low key, whatever lies behind it.
    assert_eq!(range_refused(&bytes, 24, 30, 1), 4);
    assert_eq!(range_refused(&bytes, 0, HIGHEST_KEY, 1), 4);
    assert_eq!(ranged(&bytes, 25, 110, 1), [30, 40, 100, 110]);
}

/// A router that has ended or not begun is none.
#[test]
fn only_routers_alive_then_count() {
    let dead = changed(&under_one_root(), |image| {
        image.page_mut(9).entries[0].span = Span { start: 1, end: 2 };
    });
    assert_eq!(calls::lookup(&dead, 10, 1), found(100));
    assert_eq!(calls::lookup(&dead, 10, 2), UNSOUND);
    assert_eq!(calls::lookup(&dead, 100, 2), found(1000));
    assert_eq!(range_refused(&dead, 99, 100, 2), 4);
    assert_eq!(ranged(&dead, 99, 100, 1), [100]);
    let late = changed(&under_one_root(), |image| {
        image.page_mut(9).entries[1].span = Span::alive_from(3);
    });
    // Before it begins, the router below it leads on.
    assert_eq!(calls::lookup(&late, 100, 2), ABSENT);
    assert_eq!(calls::lookup(&late, 100, 3), found(1000));
    assert_eq!(ranged(&late, 0, 200, 2), [10, 20, 30, 40, 200]);
    let none = changed(&under_one_root(), |image| {
        for router in &mut image.page_mut(9).entries {
            router.span.end = 3;
        }
    });
    assert_eq!(calls::lookup(&none, 10, 3), UNSOUND);
    assert_eq!(range_refused(&none, 0, 10, 3), 4);
    let empty = changed(&under_one_root(), |image| image.page_mut(9).entries.clear());
    assert_eq!(calls::lookup(&empty, HIGHEST_KEY, 1), UNSOUND);
}

/// Page 9 and page 11, an index page for 300 on whose first router begins
/// later, stand under page 12.
fn two_index_pages(first: u32) -> Vec<u8> {
    changed(&under_one_root(), |image| {
        *image.page_mut(10) = leaf(1, ALIVE, [310, 320, 330, 340]);
        image.pages.push(leaf(1, ALIVE, [350, 360, 370, 380]));
        image.pages.push(index(1, ALIVE, &[(first, 10), (350, 11)]));
        let top = Page {
            level: 3,
            ..index(1, ALIVE, &[(0, 9), (300, 12)])
        };
        image.pages.push(top);
        image.slots[1].root = 13;
    })
}

/// Reading 04.5: below a later router its own low key stands for the key.
#[test]
fn a_later_routers_child_must_cover_its_low_key() {
    let bytes = two_index_pages(300);
    // Sound but for how few routers live in page 12.
    assert_eq!(calls::check(&bytes), (4, 5));
    assert_eq!(ranged(&bytes, 230, 300, 1), [230]);
    assert_eq!(
        ranged(&bytes, 220, 350, 1),
        [220, 230, 310, 320, 330, 340, 350]
    );
    let bytes = two_index_pages(305);
    assert_eq!(ranged(&bytes, 230, 299, 1), [230]);
    // Page 12 is followed for 300, and nothing there is at or below it.
    assert_eq!(range_refused(&bytes, 230, 300, 1), 4);
    assert_eq!(range_refused(&bytes, 0, HIGHEST_KEY, 1), 4);
    // On the first path the range's low key stands all the way down.
    assert_eq!(range_refused(&bytes, 304, 320, 1), 4);
    assert_eq!(ranged(&bytes, 305, 320, 1), [310, 320]);
    assert_eq!(calls::lookup(&bytes, 304, 1), UNSOUND);
    assert_eq!(calls::lookup(&bytes, 310, 1), found(3100));
    // A lower one is none of its matter: it goes down by the last at or below.
    let bytes = two_index_pages(7);
    assert_eq!(ranged(&bytes, 230, 315, 1), [230, 310]);
}

/// Below a later router the first path is that router's own: a second router
/// below its low key is not followed.
#[test]
fn the_last_at_or_below_a_later_routers_low_key() {
    let bytes = changed(&under_one_root(), |image| {
        *image.page_mut(10) = leaf(1, ALIVE, [310, 320, 330, 340]);
        let below = index(1, ALIVE, &[(0, 6), (250, 7), (300, 10), (320, 8)]);
        image.pages.push(below);
        let top = Page {
            level: 3,
            ..index(1, ALIVE, &[(0, 9), (310, 11)])
        };
        image.pages.push(top);
        image.slots[1].root = 12;
    });
    // In page 11 the router at 300 is the last at or below 310; those before
    // it are not followed, the one at 320 is from 320 on.
    assert_eq!(ranged(&bytes, 231, 319, 1), [310]);
    assert_eq!(ranged(&bytes, 230, 319, 1), [230, 310]);
    let again = [230, 310, 320, 330, 340, 230];
    assert_eq!(ranged(&bytes, 230, 340, 1), again);
}

#[test]
fn two_entries_alive_with_one_key() {
    let bytes = changed(&under_one_root(), |image| {
        let page = image.page_mut(6);
        page.entries = vec![
            entry(7, 1, ALIVE, 70),
            entry(7, 2, ALIVE, 71),
            entry(7, 3, ALIVE, 72),
            entry(8, 1, 2, 80),
            entry(8, 3, ALIVE, 81),
        ];
    });
    assert_eq!(calls::check(&bytes), (4, 4));
    for version in 1..=3 {
        assert_eq!(calls::lookup(&bytes, 7, version), found(70));
        assert_eq!(ranged(&bytes, 7, 7, version), vec![7; version as usize]);
    }
    assert_eq!(calls::lookup(&bytes, 8, 1), found(80));
    assert_eq!(calls::lookup(&bytes, 8, 2), ABSENT);
    assert_eq!(calls::lookup(&bytes, 8, 3), found(81));
    let mut list = [0; 6];
    assert_eq!(calls::range(&bytes, 0, 7, 3, &mut list), (0, 3));
    assert_eq!(list, [7, 70, 7, 71, 7, 72]);
}

/// Reading 04.4.
#[test]
fn two_routers_alive_with_one_key() {
    let bytes = changed(&under_one_root(), |image| {
        let routers = &mut image.page_mut(9).entries;
        routers[2] = entry(100, 2, ALIVE, 8);
    });
    assert_eq!(calls::lookup(&bytes, 100, 1), found(1000));
    // The last leads on.
    assert_eq!(calls::lookup(&bytes, 100, 2), ABSENT);
    assert_eq!(calls::lookup(&bytes, 200, 2), found(2000));
    // Both are later than the one at 0.
    assert_eq!(
        ranged(&bytes, 40, 300, 2),
        [40, 100, 110, 120, 130, 200, 210, 220, 230]
    );
    // For the low key itself it is the last alone.
    assert_eq!(ranged(&bytes, 100, 300, 2), [200, 210, 220, 230]);
    assert_eq!(ranged(&bytes, 100, 300, 1), [100, 110, 120, 130]);
}

/// Reading 04.6: they may repeat or fall.
#[test]
fn a_range_that_meets_a_page_twice() {
    let bytes = changed(&under_one_root(), |image| {
        for router in &mut image.page_mut(9).entries {
            router.value = 6;
        }
    });
    assert_eq!(ranged(&bytes, 0, 99, 1), [10, 20, 30, 40]);
    assert_eq!(
        ranged(&bytes, 15, 250, 1),
        [20, 30, 40, 20, 30, 40, 20, 30, 40]
    );
    assert_eq!(calls::lookup(&bytes, 10, 1), found(100));
    assert_eq!(calls::lookup(&bytes, 110, 1), ABSENT);
    let falling = changed(&under_one_root(), |image| {
        let routers = &mut image.page_mut(9).entries;
        (routers[0].value, routers[2].value) = (8, 6);
    });
    assert_eq!(
        ranged(&falling, 0, 210, 1),
        [200, 210, 100, 110, 120, 130, 10, 20, 30, 40]
    );
    assert_eq!(calls::lookup(&falling, 20, 1), ABSENT);
}

#[test]
fn five_and_six_over_a_damaged_walk() {
    let mut bytes = under_one_root().write();
    // The root page, in a spare bit of its head.
    bytes[9 * 256 + 10] = 1;
    assert_eq!(calls::lookup(&bytes, 10, 1), UNSOUND);
    assert_eq!(calls::lookup(&bytes, HIGHEST_KEY + 1, 1), (5, false, 0));
    assert_eq!(calls::lookup(&bytes, u32::MAX, 9), (5, false, 0));
    assert_eq!(calls::lookup(&bytes, 10, 4), (6, false, 0));
    assert_eq!(calls::lookup(&bytes, 10, u32::MAX), (6, false, 0));
    assert_eq!(range_refused(&bytes, 0, HIGHEST_KEY, 1), 4);
    assert_eq!(range_refused(&bytes, 1, 0, 1), 5);
    assert_eq!(range_refused(&bytes, 0, HIGHEST_KEY + 1, 9), 5);
    assert_eq!(range_refused(&bytes, u32::MAX, u32::MAX, 1), 5);
    assert_eq!(range_refused(&bytes, 0, 1, 4), 6);
    // With the header damaged too, 4 comes first.
    bytes[255] = 1;
    assert_eq!(calls::lookup(&bytes, HIGHEST_KEY + 1, 1), UNSOUND);
    assert_eq!(range_refused(&bytes, 0, 1, 4), 4);
}

#[test]
fn four_over_fourteen() {
    let mut bytes = under_one_root().write();
    let mut list = [7; 9];
    assert_eq!(calls::range(&bytes, 0, 150, 1, &mut list), (14, 8));
    // The last page of the walk.
    bytes[7 * 256 + 255] = 1;
    assert_eq!(range_refused(&bytes, 0, 150, 1), 4);
    assert_eq!(calls::range(&bytes, 0, 150, 1, &mut list), (4, 0));
    assert_eq!(list, [7; 9]);
    assert_eq!(calls::range(&bytes, 0, 99, 1, &mut list[..7]), (14, 4));
    assert_eq!(calls::range(&bytes, 0, 99, 1, &mut list), (0, 4));
    assert_eq!(list, [10, 100, 20, 200, 30, 300, 40, 400, 7]);
}

#[test]
fn one_two_three_before_four() {
    let mut bytes = under_one_root().write();
    bytes[255] = 1;
    let cut = bytes.len() - 1;
    assert_eq!(calls::lookup(&bytes, u32::MAX, 9), UNSOUND);
    assert_eq!(calls::lookup(&bytes[..cut], u32::MAX, 9), (1, false, 0));
    assert_eq!(range_refused(&bytes[..5 * 256], 0, 1, 1), 1);
    // 2026-08: 3, and before it 2, come before the length.
    bytes[4] = 3;
    for length in [5, 5 * 256, cut, cut + 1] {
        assert_eq!(calls::lookup(&bytes[..length], u32::MAX, 9), (3, false, 0));
        assert_eq!(range_refused(&bytes[..length], 0, 1, 1), 3);
    }
    bytes[0] = 2;
    for length in [5, 5 * 256, cut, cut + 1] {
        assert_eq!(calls::lookup(&bytes[..length], u32::MAX, 9), (2, false, 0));
        assert_eq!(range_refused(&bytes[..length], 0, 1, 1), 2);
    }
    assert_eq!(calls::lookup(&bytes[..4], u32::MAX, 9), (1, false, 0));
    assert_eq!(calls::lookup(&[], 0, 0), (1, false, 0));
}

type PageDamage = fn(&mut Page);

/// Of any page, each breaks rule 1.
const OF_ANY_PAGE: [PageDamage; 12] = [
    |page| page.span.start = 4,
    |page| page.span.end = 4,
    |page| page.span.end = ALIVE - 1,
    |page| (page.span.start, page.span.end) = (2, 2),
    |page| page.entries[1].span.start = 4,
    |page| page.entries[1].span.end = 4,
    |page| page.entries[1].span = Span { start: 2, end: 2 },
    |page| page.entries[1].span = Span { start: 3, end: 2 },
    |page| page.entries.swap(1, 2),
    |page| page.entries[2] = page.entries[1],
    |page| page.level = 8,
    |page| page.level = 15,
];

const OF_A_LEAF: [PageDamage; 2] = [
    |page| page.entries[1].span.start = 0,
    |page| page.entries[1].span = Span { start: 0, end: 1 },
];

const OF_AN_INDEX_PAGE: [PageDamage; 5] = [
    |page| page.entries[2].value = 4,
    |page| page.entries[2].value = 11,
    |page| page.entries[2].value = u32::MAX,
    |page| page.entries[2].span = Span { start: 1, end: 4 },
    // A dead router's page number.
    |page| page.entries.push(entry(900, 1, 2, 0)),
];

/// Reading 04.2: rule 1 of a walked page, its dead entries too.
#[test]
fn rule_1_of_a_walked_page() {
    let base = under_one_root();
    for damage in OF_ANY_PAGE.iter().chain(&OF_A_LEAF) {
        let bytes = changed(&base, |image| damage(image.page_mut(6)));
        assert_eq!(calls::check(&bytes), (4, 1));
        assert_eq!(calls::lookup(&bytes, 40, 3), UNSOUND);
        assert_eq!(range_refused(&bytes, 99, 99, 3), 4);
        assert_eq!(calls::lookup(&bytes, 100, 3), found(1000));
        assert_eq!(ranged(&bytes, 100, 220, 3).len(), 7);
    }
    for damage in OF_ANY_PAGE.iter().chain(&OF_AN_INDEX_PAGE) {
        let bytes = changed(&base, |image| damage(image.page_mut(9)));
        assert_eq!(calls::lookup(&bytes, 40, 3), UNSOUND);
        assert_eq!(range_refused(&bytes, 0, 99, 3), 4);
        // Version 0 has a root of its own.
        assert_eq!(calls::lookup(&bytes, 40, 0), ABSENT);
    }
}

/// A count above 20, spare bits of the head, unused entries.
#[test]
fn rule_1_of_the_bits_of_a_walked_page() {
    let sound = under_one_root().write();
    for page in [6, 9] {
        let bits = (49..128)
            .chain(16 * 8 + 4 * 96..2048)
            .map(|bit| (bit, 0x80));
        let counts = [(4, 0x80), (4, 0xFF)];
        for (bit, mask) in bits.step_by(5).chain(counts) {
            let mut bytes = sound.clone();
            bytes[page * 256 + bit / 8] ^= mask >> (bit % 8);
            assert_eq!(
                calls::lookup(&bytes, 40, 1),
                UNSOUND,
                "page {page} bit {bit}"
            );
            assert_eq!(range_refused(&bytes, 0, 5, 1), 4);
        }
    }
}

type ImageChange = fn(&mut Image);

/// What rules 3 to 6 speak against, and no walk asks.
const BEYOND_RULE_2: [(u32, ImageChange); 7] = [
    // An entry's span beyond its page's; a router's beyond its child's.
    (3, |image| {
        image.page_mut(6).span = Span { start: 2, end: 3 }
    }),
    (3, |image| {
        image.page_mut(9).span = Span { start: 2, end: 3 }
    }),
    // Pages that ended before the version, with all that is in them.
    (3, |image| {
        image.page_mut(6).span.end = 2;
        image.page_mut(7).span.end = 2;
    }),
    // Too few that live.
    (5, |image| image.page_mut(6).entries.truncate(1)),
    // A key beyond its page's bounds.
    (4, |image| image.page_mut(6).entries[3].key = 150),
    (4, |image| image.page_mut(9).entries[1].key = 115),
    // A page that is never reached.
    (6, |image| {
        *image.page_mut(10) = leaf(1, ALIVE, [1, 2, 3, 4])
    }),
];

/// Reading 04.2, the other half: what rules 3 to 6 say is not asked.
#[test]
fn what_is_not_judged_on_the_walk() {
    for (rule, change) in BEYOND_RULE_2 {
        let bytes = changed(&under_one_root(), change);
        assert_eq!(calls::check(&bytes), (4, rule));
        assert_eq!(calls::lookup(&bytes, 10, 3), found(100));
        assert_eq!(calls::lookup(&bytes, 120, 3), found(1200));
        assert_eq!(ranged(&bytes, 0, 10, 3), [10]);
        assert_eq!(ranged(&bytes, 220, 300, 3), [220, 230]);
    }
}

/// A key in a page that the walk for it does not meet is absent, and a range shows it
/// where it stands.
#[test]
fn a_key_where_its_walk_does_not_come() {
    let bytes = changed(&under_one_root(), |image| {
        image.page_mut(6).entries[3].key = 150;
    });
    assert_eq!(calls::lookup(&bytes, 150, 1), ABSENT);
    assert_eq!(
        ranged(&bytes, 0, 199, 1),
        [10, 20, 30, 150, 100, 110, 120, 130]
    );
    assert_eq!(ranged(&bytes, 0, 99, 1), [10, 20, 30]);
    assert_eq!(ranged(&bytes, 140, 199, 1), []);
}

/// A store in which each router of a level leads to the same page below, and
/// every one of them is followed: `levels` levels, and 20 settings in the leaf.
pub fn all_ways_to_one_leaf(levels: u32) -> Vec<u8> {
    let mut pages = vec![leaf(1, ALIVE, (0..20).map(|key| 1000 + key))];
    for level in 2..=levels {
        // All but the first lie above every router of the levels above.
        let low = |n: u32| if n == 0 { 0 } else { 20 * (levels - level) + n };
        let routers = (0..20).map(|n| entry(low(n), 1, ALIVE, 4 + level));
        pages.push(Page::new(level, Span::alive_from(1), routers.collect()));
    }
    image(1, false, &[(1, 5 + levels)], pages).write()
}

/// Reading 04.7.
#[test]
fn a_leaf_met_thousands_of_times() {
    for (levels, count) in [(1, 20), (2, 400), (3, 8000), (4, 160_000)] {
        let bytes = all_ways_to_one_leaf(levels);
        let all = |list: &mut [u32]| calls::range(&bytes, 0, HIGHEST_KEY, 1, list);
        assert_eq!(all(&mut []), (14, count));
        assert_eq!(all(&mut vec![0; 2 * count as usize - 1]), (14, count));
        let mut list = vec![0; 2 * count as usize];
        assert_eq!(all(&mut list), (0, count));
        let settings = list.chunks_exact(2).enumerate();
        for (index, setting) in settings {
            let key = 1000 + index as u32 % 20;
            assert_eq!(setting, [key, 10 * key]);
        }
        assert_eq!(calls::lookup(&bytes, 1007, 1), found(10_070));
        // The leaf alone is short of the range, or beyond it.
        assert_eq!(ranged(&bytes, 5000, 6000, 1), []);
    }
}

/// "On a sound store the answers stay."
#[test]
fn on_sound_stores_the_answers_stay() {
    let mut compared = 0;
    for seed in 0..rounds(60) {
        let bytes = sound_store(seed);
        let last = store::header(&bytes).last();
        for version in [0, last / 2, last.saturating_sub(1), last] {
            let settings = walk::range(&bytes, 0, HIGHEST_KEY, version);
            let keys = settings.iter().flat_map(|(key, _)| [*key, key + 1]);
            for key in keys
                .chain([0, HIGHEST_KEY])
                .step_by(1 + settings.len() / 12)
            {
                let answer = calls::lookup(&bytes, key, version);
                assert_eq!(answer, unjudged::lookup(&bytes, key, version));
                compared += 1;
            }
            let ends = [0, 1, settings.len() / 2, settings.len().saturating_sub(1)];
            let ends = ends.map(|n| settings.get(n).map_or(0, |setting| setting.0));
            for (low, high) in [(0, HIGHEST_KEY), (ends[1], ends[2]), (ends[2], ends[3] + 1)] {
                let (mut list, mut other) = (vec![7; 999], vec![7; 999]);
                let answer = calls::range(&bytes, low, high, version, &mut list);
                let (number, count) = unjudged::range(&bytes, low, high, version, &mut other);
                assert_eq!(answer, (number, count.into()));
                assert_eq!(list, other);
                compared += 1;
            }
        }
    }
    println!("{compared} calls compared");
    assert!(compared > 2000);
}

//! The open points of document 01 as the team reads them, a test for each
//! that can be seen from outside. The numbers are those of the readings.

use crate::calls;
use crate::common::build::*;
use crate::common::*;
use reference::edition::FIRST;
use reference::image::Image;
use reference::layout::{at, Page, Slot, Span, ALIVE, HIGHEST_VERSION};
use reference::store::{self, page, page_bytes_mut, slot_bytes_mut};
use reference::tall::{tall, Fill, Spine};

fn rule(bytes: &[u8]) -> u32 {
    let (number, rule) = calls::check(bytes);
    assert_eq!(number, 4);
    rule
}

/// Two leaves of four under a root, at version 1.
fn two_leaves() -> Image {
    let pages = vec![
        leaf(1, ALIVE, [10, 20, 30, 40]),
        leaf(1, ALIVE, [100, 110, 120, 130]),
        index(1, ALIVE, &[(0, 6), (100, 7)]),
    ];
    image(1, false, &[(1, 8)], pages)
}

fn written(image: &Image) -> Vec<u8> {
    let bytes = image.write();
    assert_sound(&bytes);
    bytes
}

#[test]
fn reading_01_no_root_is_rule_2_too_many_rule_1() {
    let mut bytes = fresh(6);
    FIRST.root_count.set(&mut bytes, 0);
    slot_bytes_mut(&mut bytes, 0).fill(0);
    assert_eq!(rule(&bytes), 2);
    let mut bytes = fresh(6);
    FIRST.root_count.set(&mut bytes, 257);
    assert_eq!(rule(&bytes), 1);
}

#[test]
fn reading_02_version_1048575() {
    let mut bytes = fresh(6);
    at::SLOT_VERSION.set(slot_bytes_mut(&mut bytes, 0), 1_048_575);
    assert_eq!(rule(&bytes), 2);
    let mut bytes = fresh(6);
    at::CURRENT.set(&mut bytes, 1_048_575);
    assert_eq!(rule(&bytes), 1);
    at::CURRENT.set(&mut bytes, 1_048_574);
    assert_sound(&bytes);
}

#[test]
fn reading_03_page_numbers() {
    for (root, broken) in [(0, 1), (4, 1), (6, 3), (7, 1), (4095, 1)] {
        let mut bytes = fresh(7);
        at::SLOT_ROOT.set(slot_bytes_mut(&mut bytes, 0), root);
        assert_eq!(rule(&bytes), broken, "root {root}");
    }
    // A dead router to a free page: the one that led to a page now gone.
    let mut image = two_leaves();
    free_pages(&mut image, 1);
    image.header.current = 2;
    let dead = entry(50, 1, 2, 9);
    image.page_mut(8).entries.insert(1, dead);
    assert_eq!(rule(&image.write()), 3);
    let mut bytes = fresh(6);
    at::PAGE_COUNT.set(&mut bytes, 7);
    assert_eq!(rule(&bytes), 1);
}

#[test]
fn reading_04_spans_of_pages_and_starts_at_0() {
    for span in [(2, ALIVE), (1, 1), (1, 0), (1, 2)] {
        let mut image = two_leaves();
        image.page_mut(6).span = Span {
            start: span.0,
            end: span.1,
        };
        assert_eq!(rule(&image.write()), 1, "{span:?}");
    }
    let mut image = two_leaves();
    image.page_mut(6).entries[0].span.start = 0;
    assert_eq!(rule(&image.write()), 1);
    let mut image = two_leaves();
    image.page_mut(8).entries[0].span.start = 0;
    assert_eq!(rule(&image.write()), 3);
}

#[test]
fn reading_05_the_last_router_inherits_its_bound() {
    let fills = [Fill::new(4, 0), Fill::new(4, 0), Fill::new(2, 0)];
    let sound = Image::read(&tall(&fills, Spine::First, 0).unwrap().store);
    let root = sound.page(sound.root(1)).clone();
    let bound = root.entries[1].key;
    let left = sound.page(root.entries[0].value).entries.clone();
    // The last leaf under the root's first child: its bound is the root's.
    let mut image = sound.clone();
    image.page_mut(left[3].value).entries[3].key = bound - 1;
    assert_sound(&image.write());
    image.page_mut(left[3].value).entries[3].key = bound;
    assert_eq!(rule(&image.write()), 4);
    // A router's low key is a key in its page's bounds as well; its leaf,
    // moved along with it, would be in order.
    let mut image = sound.clone();
    image.page_mut(root.entries[0].value).entries[3].key = bound;
    for (key, setting) in (bound..).zip(&mut image.page_mut(left[3].value).entries) {
        setting.key = key;
    }
    assert_eq!(rule(&image.write()), 4);
}

#[test]
fn reading_06_an_index_page_without_live_routers_is_rule_5() {
    let mut image = two_leaves();
    image.page_mut(8).entries.clear();
    assert_eq!(rule(&image.write()), 5);
}

#[test]
fn reading_07_faults_on_unreached_pages_are_rule_6() {
    let mut image = two_leaves();
    let twice = with(leaf(1, ALIVE, [5, 5]), []);
    image.pages.push(twice);
    image.header.current = 2;
    image.page_mut(9).entries[1].span.start = 2;
    assert_eq!(rule(&image.write()), 6);
    // Version 1 reads the leaf of version 0, then an index page of version 2.
    let mut image = two_leaves();
    image.slots[1].root = 5;
    assert_eq!(rule(&image.write()), 6);
    let mut image = two_leaves();
    image.slots[0].root = 8;
    image.slots.remove(1);
    assert_eq!(rule(&image.write()), 5);
}

#[test]
fn reading_08_each_rule_over_all_versions() {
    let mut image = two_leaves();
    image.header.current = 3;
    // Version 1: too few in page 7. Version 3: a key outside page 6.
    for setting in &mut image.page_mut(7).entries[1..] {
        setting.span.start = 2;
    }
    assert_eq!(rule(&image.write()), 5);
    image.page_mut(6).entries.push(entry(100, 3, ALIVE, 0));
    assert_eq!(rule(&image.write()), 4);
}

#[test]
fn reading_09_what_rule_7_forbids_is_rule_3_or_1() {
    let mut image = two_leaves();
    image.header.open = true;
    renew_first_leaf(&mut image);
    written(&image);
    let mut older = image.clone();
    older.page_mut(9).entries[0].span.start = 1;
    assert_eq!(rule(&older.write()), 3);
    let mut ended = image.clone();
    ended.page_mut(9).entries[0].span.end = 2;
    assert_eq!(rule(&ended.write()), 1);
}

/// Page 9 takes the place of page 6 in the open version.
fn renew_first_leaf(image: &mut Image) {
    free_pages(image, 1);
    renew_leaf(image, 8, 6, 9);
}

#[test]
fn reading_10_slots_that_repeat_a_root() {
    let mut image = two_leaves();
    image.header.current = 4;
    for version in 2..=4 {
        image.slots.push(Slot { version, root: 8 });
    }
    free_pages(&mut image, 2);
    let mut bytes = written(&image);
    open(&mut bytes);
    delete_all(&mut bytes, [10]);
    assert_eq!(slots(&bytes)[4..], [(4, 8), (5, 9)]);
    assert_eq!(calls::lookup(&bytes, 10, 4), (0, true, 100));
}

#[test]
fn reading_10_a_page_that_is_root_and_child() {
    // Page 6 is the root of version 1 and a child of page 8 from 2 on.
    let pages = vec![
        leaf(1, ALIVE, [10, 20, 30, 40]),
        leaf(2, ALIVE, [100, 110, 120, 130]),
        index(2, ALIVE, &[(0, 6), (100, 7)]),
        Page::free(),
    ];
    let mut bytes = written(&image(2, false, &[(1, 6), (2, 8)], pages));
    let before = bytes.clone();
    open(&mut bytes);
    delete_all(&mut bytes, [20]);
    assert_eq!(span(&page(&bytes, 6)), (1, 3));
    assert_eq!(slots(&bytes), [(0, 5), (1, 6), (2, 8), (3, 9)]);
    abandon(&mut bytes);
    assert_eq!(bytes, before);
}

#[test]
fn reading_10_low_keys_that_differ_between_versions() {
    let mut image = two_leaves();
    image.header.current = 2;
    // From version 2 on page 7 begins at 50 instead of 100.
    let routers = &mut image.page_mut(8).entries;
    routers[1].span.end = 2;
    routers.insert(1, entry(50, 2, ALIVE, 7));
    let mut bytes = written(&image);
    open(&mut bytes);
    insert_all(&mut bytes, [60, 45]);
    assert_eq!(live_keys(&page(&bytes, 7), 3), [60, 100, 110, 120, 130]);
    assert_eq!(live_keys(&page(&bytes, 6), 3), [10, 20, 30, 40, 45]);
}

#[test]
fn reading_10_an_open_slot_that_names_an_inactive_root() {
    let mut image = two_leaves();
    image.header.open = true;
    image.slots.push(Slot {
        version: 2,
        root: 8,
    });
    free_pages(&mut image, 1);
    let lent = written(&image);
    let mut bytes = lent.clone();
    delete_all(&mut bytes, [10]);
    assert_eq!(slots(&bytes), [(0, 5), (1, 8), (2, 9)]);
    abandon(&mut bytes);
    image.header.open = false;
    image.slots.pop();
    assert_eq!(bytes, image.write());
}

#[test]
fn reading_11_judging_comes_before_arguments() {
    let mut bytes = fresh(6);
    bytes[300] = 1;
    assert_eq!(calls::insert(&mut bytes, u32::MAX, 0), 4);
    assert_eq!(calls::delete(&mut bytes, u32::MAX), 4);
    assert_eq!(calls::lookup(&bytes, u32::MAX, u32::MAX), (4, false, 0));
    assert_eq!(calls::range(&bytes, 2, 1, 9, &mut []), (4, 0));
    assert_eq!(calls::open(&mut bytes), 4);
    assert_eq!(calls::commit(&mut bytes), 4);
    assert_eq!(calls::abandon(&mut bytes), 4);
}

#[test]
fn reading_11_of_several_the_smallest() {
    let mut bytes = fresh(6);
    // No update open and a key too large; then a key that is alive, too.
    assert_eq!(calls::insert(&mut bytes, 1 << 24, 0), 5);
    assert_eq!(calls::delete(&mut bytes, 1 << 24), 5);
    assert_eq!(calls::insert(&mut bytes, 1, 0), 7);
    assert_eq!(calls::delete(&mut bytes, 1), 7);
    assert_eq!(calls::commit(&mut bytes), 7);
    assert_eq!(calls::abandon(&mut bytes), 7);
    assert_eq!(calls::lookup(&bytes, 1 << 24, 1).0, 5);
    assert_eq!(calls::range(&bytes, 1 << 24, 1 << 24, 9, &mut []).0, 5);
    assert_eq!(calls::range(&bytes, 0, 1 << 24, 9, &mut []).0, 5);
    assert_eq!(calls::range(&bytes, 2, 1, 9, &mut []).0, 5);
    assert_eq!(calls::range(&bytes, 1, 1, 9, &mut []).0, 6);
    open(&mut bytes);
    insert_all(&mut bytes, 1..=20);
    // Page 5 is full and no page is free.
    assert_eq!(calls::insert(&mut bytes, 1, 0), 10);
    assert_eq!(calls::insert(&mut bytes, 21, 0), 12);
    assert_eq!(calls::delete(&mut bytes, 21), 11);
    assert_eq!(calls::open(&mut bytes), 8);
}

#[test]
fn reading_12_the_open_version_is_readable() {
    let mut bytes = fresh(6);
    open(&mut bytes);
    assert_eq!(calls::lookup(&bytes, 1, 1), (0, false, 0));
    insert_all(&mut bytes, [1]);
    assert_eq!(calls::lookup(&bytes, 1, 1), (0, true, 10));
    assert_eq!(calls::lookup(&bytes, 1, 0), (0, false, 0));
    assert_eq!(calls::lookup(&bytes, 1, 2), (6, false, 0));
}

/// Two leaves that merge on the next delete, with 256 slots in use and `free`
/// pages; the last slot is that of the open version if `has_slot`.
fn full_directory(has_slot: bool, free: usize) -> Vec<u8> {
    let mut image = two_leaves();
    image.header.current = 300;
    image.header.open = true;
    let newest = if has_slot { 301 } else { 300 };
    let versions = (2..=254).chain([newest]);
    image
        .slots
        .extend(versions.map(|version| Slot { version, root: 8 }));
    assert_eq!(image.slots.len(), 256);
    free_pages(&mut image, free);
    written(&image)
}

#[test]
fn reading_13_a_delete_can_lack_a_page_or_a_slot() {
    for (has_slot, free, number) in [(false, 0, 12), (false, 1, 13), (true, 0, 12), (true, 1, 0)] {
        let mut bytes = full_directory(has_slot, free);
        let before = bytes.clone();
        assert_eq!(calls::delete(&mut bytes, 10), number);
        assert_eq!(bytes == before, number != 0);
        if number == 0 {
            assert_eq!(slots(&bytes)[255], (301, 9));
        }
    }
}

#[test]
fn reading_13_a_page_freed_later_in_the_call_does_not_help() {
    // Page 8, the root, is active; the leaves under it are not. The merged
    // leaf needs a page before the root goes.
    let mut image = two_leaves();
    image.header.open = true;
    image.page_mut(8).span = Span::alive_from(2);
    for router in &mut image.page_mut(8).entries {
        router.span.start = 2;
    }
    image.pages.push(index(1, 2, &[(0, 6), (100, 7)]));
    image.slots[1].root = 9;
    image.slots.push(Slot {
        version: 2,
        root: 8,
    });
    let mut bytes = written(&image);
    assert_eq!(calls::delete(&mut bytes, 10), 12);
    free_pages(&mut image, 1);
    let mut bytes = written(&image);
    assert_eq!(calls::delete(&mut bytes, 10), 0);
    assert!(page(&bytes, 8).is_free());
    assert_eq!(slots(&bytes)[2], (2, 10));
}

#[test]
fn reading_14_results_of_refusals_are_0() {
    let mut bytes = fresh(6);
    open(&mut bytes);
    insert_all(&mut bytes, 1..=5);
    assert_eq!(calls::range(&bytes, 1, 5, 1, &mut [0; 9]), (14, 5));
    assert_eq!(calls::range(&bytes, 1, 5, 1, &mut [0; 10]), (0, 5));
    assert_eq!(calls::range(&bytes, 1, 5, 2, &mut [0; 10]), (6, 0));
    assert_eq!(calls::lookup(&bytes, 6, 1), (0, false, 0));
    assert_eq!(calls::range(&bytes, 6, 9, 1, &mut []), (0, 0));
}

#[test]
fn reading_15_abandon_takes_back_slot_and_closes_up() {
    let mut bytes = fresh(16);
    open(&mut bytes);
    insert_all(&mut bytes, (10..=29).step_by(2));
    commit(&mut bytes);
    let before = bytes.clone();
    open(&mut bytes);
    insert_all(&mut bytes, [11, 13]);
    delete_all(&mut bytes, [12]);
    assert_eq!(page(&bytes, 5).entries.len(), 12);
    insert_all(&mut bytes, 30..=45);
    assert_eq!(store::header(&bytes).roots, 2);
    abandon(&mut bytes);
    assert_eq!(store::header(&bytes).roots, 1);
    assert_eq!(bytes, before);
}

#[test]
fn reading_16_number_9_needs_the_flag_clear() {
    let mut bytes = fresh(6);
    at::CURRENT.set(&mut bytes, HIGHEST_VERSION);
    assert_eq!(calls::open(&mut bytes), 9);
    at::OPEN_FLAG.set(&mut bytes, 1);
    assert_eq!(calls::open(&mut bytes), 4);
    at::CURRENT.set(&mut bytes, HIGHEST_VERSION - 1);
    assert_eq!(calls::open(&mut bytes), 8);
    insert_all(&mut bytes, [1]);
    commit(&mut bytes);
    assert_eq!(calls::open(&mut bytes), 9);
}

#[test]
fn reading_17_a_killed_page_keeps_only_older_entries() {
    let mut bytes = fresh(16);
    open(&mut bytes);
    insert_all(&mut bytes, (2..=20).step_by(2));
    commit(&mut bytes);
    open(&mut bytes);
    // Ten from version 1, ten from version 2, then one more.
    insert_all(&mut bytes, (1..=19).step_by(2));
    insert_all(&mut bytes, [21]);
    let five = page(&bytes, 5);
    let older = (2..=20).step_by(2);
    let expected: Vec<_> = older.map(|key| entry(key, 1, 2, value_of(key))).collect();
    assert_eq!((five.entries, five.span.end), (expected, 2));
}

#[test]
fn reading_18_the_same_router_stays() {
    // Two active leaves of three merge into the first: its router is as it
    // was, and as it would be if it were dropped and added again.
    let mut bytes = fresh(16);
    open(&mut bytes);
    insert_all(&mut bytes, 1..=32);
    let before = page(&bytes, 8).entries;
    let first = entry(0, 1, ALIVE, 6);
    assert_eq!((before.len(), before[0]), (3, first));
    delete_all(&mut bytes, 1..=8);
    assert_eq!(page(&bytes, 8).entries, [first, before[2]]);
}

#[test]
fn reading_19_no_level_both_frees_and_takes() {
    use reference::history::{History, KINDS};
    let levels = |bytes: &[u8]| -> Vec<u32> {
        let numbers = store::page_numbers(bytes);
        numbers.map(|number| store::level(bytes, number)).collect()
    };
    for seed in 0..60 {
        let mut history = History::new(seed, KINDS[seed as usize % 3], 60);
        let mut bytes = vec![0; 60 * 256];
        for _ in 0..200 {
            let call = history.next_call();
            let before = levels(&bytes);
            let mut list = vec![0; call.list_length()];
            let answer = reference::engine::apply(call, &mut bytes, &mut list);
            history.observe(call, &answer);
            let update = format!("{call:?}");
            if update.starts_with("Insert") || update.starts_with("Delete") {
                no_level_both(&before, &levels(&bytes));
            }
        }
    }
}

fn no_level_both(before: &[u32], after: &[u32]) {
    for level in 1..=7 {
        let both = || before.iter().zip(after);
        let freed = both().any(|(old, new)| *old == level && *new != level);
        let taken = both().any(|(old, new)| *old != level && *new == level);
        assert!(!(freed && taken));
    }
}

/// Three leaves of the given keys under a root, all of version 1, and `free`
/// free pages.
fn three_leaves(keys: [Vec<u32>; 3], free: usize) -> Image {
    let lows = [0, keys[1][0], keys[2][0]];
    let mut pages: Vec<Page> = keys.into_iter().map(|k| leaf(1, ALIVE, k)).collect();
    pages.push(index(1, ALIVE, &[(lows[0], 6), (lows[1], 7), (lows[2], 8)]));
    let mut image = image(1, true, &[(1, 9)], pages);
    free_pages(&mut image, free);
    image
}

fn keys(first: u32, count: u32) -> Vec<u32> {
    (first..first + count).collect()
}

#[test]
fn reading_20_and_22_the_right_neighbour_first() {
    let sound = three_leaves([keys(0, 4), keys(100, 4), keys(200, 4)], 2);
    for (key, gathered, left_alone) in [(0, [6, 7], 8), (100, [7, 8], 6), (200, [7, 8], 6)] {
        let mut bytes = written(&sound);
        delete_all(&mut bytes, [key]);
        for number in gathered {
            assert_eq!(span(&page(&bytes, number)), (1, 2), "delete {key}");
        }
        assert_eq!(span(&page(&bytes, left_alone)), (1, ALIVE));
        assert_eq!(page(&bytes, 10).entries.len(), 7);
    }
}

/// A leaf of `live` entries and as many dead ones as make 20, beside one of
/// `beside` live entries.
fn full_of_dead(live: u32, beside: u32) -> Vec<u8> {
    let dead = 20 - live;
    let pages = vec![
        with_dead(leaf(1, ALIVE, keys(10, live)), dead),
        leaf(1, ALIVE, keys(100, beside)),
        index(1, ALIVE, &[(0, 6), (100, 7)]),
    ];
    let mut image = image(dead + 1, true, &[(1, 8)], pages);
    free_pages(&mut image, 4);
    written(&image)
}

#[test]
fn reading_21_and_22_under_8_exactly_also_by_dead_entries() {
    // Six live and the one inserted are under 8: the neighbour joins.
    let mut bytes = full_of_dead(6, 5);
    insert_all(&mut bytes, [50]);
    assert_eq!(page(&bytes, 9).entries.len(), 12);
    assert_ne!(span(&page(&bytes, 7)).1, ALIVE);
    // Seven live and the one inserted are 8: the page stands alone.
    let mut bytes = full_of_dead(7, 5);
    insert_all(&mut bytes, [50]);
    assert_eq!(page(&bytes, 9).entries.len(), 8);
    assert_eq!(span(&page(&bytes, 7)), (1, ALIVE));
}

/// The right leaf of two is active, with `right` entries; the left is not.
fn active_right(right: u32) -> Vec<u8> {
    let mut image = two_leaves();
    image.header.open = true;
    *image.page_mut(7) = leaf(1, ALIVE, keys(100, right));
    free_pages(&mut image, 4);
    renew_leaf(&mut image, 8, 7, 9);
    written(&image)
}

#[test]
fn reading_22_active_right_beside_inactive_left_takes_lower_half() {
    let mut bytes = active_right(14);
    delete_all(&mut bytes, [10]);
    let lower: Vec<u32> = [20, 30, 40].into_iter().chain(100..106).collect();
    assert_eq!(live_keys(&page(&bytes, 9), 2), lower);
    assert_eq!(live_keys(&page(&bytes, 10), 2), keys(106, 8));
    assert_eq!(live_pairs(&page(&bytes, 8), 2), [(0, 9), (106, 10)]);
    assert_eq!(span(&page(&bytes, 6)), (1, 2));
}

#[test]
fn reading_22_one_page_goes_into_the_active_right() {
    let mut bytes = active_right(13);
    delete_all(&mut bytes, [10]);
    assert_eq!(page(&bytes, 9).entries.len(), 16);
    assert!(page(&bytes, 10).is_free());
    assert_eq!(slots(&bytes)[2], (2, 9));
}

#[test]
fn reading_22_the_first_new_low_key_is_the_lowest_old_one() {
    // Page 7 has low key 50, but no key below 100.
    let mut image = three_leaves([keys(0, 4), keys(100, 20), keys(200, 4)], 3);
    image.page_mut(9).entries[1].key = 50;
    let mut bytes = written(&image);
    insert_all(&mut bytes, [150]);
    let routers = [(0, 6), (50, 10), (111, 11), (200, 8)];
    assert_eq!(live_pairs(&page(&bytes, 9), 2), routers);
    // With its left neighbour a page takes that one's low key.
    let mut bytes = written(&three_leaves([keys(0, 4), keys(100, 4), keys(200, 4)], 3));
    delete_all(&mut bytes, [203]);
    assert_eq!(live_pairs(&page(&bytes, 9), 2), [(0, 6), (100, 10)]);
}

#[test]
fn reading_22_a_page_freed_at_one_level_is_taken_at_the_next() {
    let fills = [Fill::new(4, 0), Fill::new(4, 0), Fill::new(2, 0)];
    let built = tall(&fills, Spine::First, 2).unwrap();
    let mut image = Image::read(&built.store);
    image.header.open = true;
    // The first two leaves get active pages, the last pages of the store.
    let root = image.root(2);
    let parent = image.page(root).entries[0].value;
    let leaves = image.page(parent).entries.clone();
    let last = 5 + image.pages.len() as u32 - 1;
    renew_leaf(&mut image, parent, leaves[0].value, last - 1);
    renew_leaf(&mut image, parent, leaves[1].value, last);
    let mut bytes = written(&image);
    // No page is free: the leaves merge, and the page this frees takes the
    // index page that has to be made.
    delete_all(&mut bytes, [0]);
    assert_eq!(store::level(&bytes, last), 2);
    assert_eq!(page(&bytes, last).entries.len(), 7);
    assert_eq!(slots(&bytes).last(), Some(&(2, last)));
}

#[test]
fn reading_23_a_root_of_one_router_goes_before_room_is_tested() {
    let pages = vec![
        leaf(1, ALIVE, keys(10, 4)),
        leaf(1, ALIVE, keys(100, 4)),
        with_dead(index(1, ALIVE, &[(0, 6), (100, 7)]), 18),
    ];
    let mut image = image(19, true, &[(1, 8)], pages);
    free_pages(&mut image, 1);
    let mut bytes = written(&image);
    delete_all(&mut bytes, [10]);
    assert_eq!(slots(&bytes)[2], (20, 9));
    assert_eq!(store::level(&bytes, 9), 1);
    assert_eq!(page(&bytes, 8).entries.len(), 20);
}

#[test]
fn reading_24_a_root_gathered_into_one_page() {
    // An index root, full by its dead routers, whose child splits: three live
    // routers in a new root of the same level.
    let pages = vec![
        leaf(1, ALIVE, keys(10, 20)),
        leaf(1, ALIVE, keys(100, 4)),
        with_dead(index(1, ALIVE, &[(0, 6), (100, 7)]), 18),
    ];
    let mut image = image(19, true, &[(1, 8)], pages);
    free_pages(&mut image, 3);
    let mut bytes = written(&image);
    insert_all(&mut bytes, [50]);
    assert_eq!(slots(&bytes)[2], (20, 11));
    let routers = [(0, 9), (21, 10), (100, 7)];
    assert_eq!(live_pairs(&page(&bytes, 11), 20), routers);
    assert_eq!(
        (store::level(&bytes, 11), span(&page(&bytes, 8)).1),
        (2, 20)
    );
}

#[test]
fn reading_24_an_active_page_keeps_number_and_low_key() {
    let mut bytes = fresh(16);
    open(&mut bytes);
    insert_all(&mut bytes, 1..=31);
    // Page 7 (12 to 31) overflowed: it keeps the lower half, page 9 is new.
    insert_all(&mut bytes, [32]);
    assert_eq!(live_keys(&page(&bytes, 7), 1), keys(12, 11));
    assert_eq!(live_keys(&page(&bytes, 9), 1), keys(23, 10));
    assert_eq!(live_pairs(&page(&bytes, 8), 1), [(0, 6), (12, 7), (23, 9)]);
}

#[test]
fn reading_25_copied_entries_start_at_the_open_version() {
    let mut bytes = active_right(14);
    delete_all(&mut bytes, [10]);
    for number in [9, 10] {
        let page = page(&bytes, number);
        assert_eq!(span(&page), (2, ALIVE));
        assert!(page.entries.iter().all(|e| e.span == page.span));
    }
}

#[test]
fn reading_26_seven_and_twenty_make_fourteen_and_thirteen() {
    let mut bytes = full_of_dead(6, 20);
    insert_all(&mut bytes, [50]);
    assert_eq!(page(&bytes, 9).entries.len(), 14);
    assert_eq!(page(&bytes, 10).entries.len(), 13);
}

#[test]
fn what_only_ends_is_judged_too() {
    // Nothing starts at version 2: a setting ends, a first router, a root.
    let mut image = two_leaves();
    image.header.current = 2;
    assert_sound(&image.write());
    let mut thin = image.clone();
    thin.page_mut(6).entries[0].span.end = 2;
    assert_eq!(rule(&thin.write()), 5);
    let mut headless = image.clone();
    headless.page_mut(8).entries[0].span.end = 2;
    assert_eq!(rule(&headless.write()), 4);
    let leaf_root = vec![leaf(1, 2, keys(10, 4))];
    let ended = crate::common::build::image(2, false, &[(1, 6)], leaf_root);
    assert_eq!(rule(&ended.write()), 6);
}

#[test]
fn a_set_spare_bit_is_seen_wherever_it_stands() {
    // Document 01's last slip, on one page of every sort.
    let sound = written(&two_leaves());
    for bit in 49..128 {
        for number in [5, 6, 8] {
            let mut bytes = sound.clone();
            page_bytes_mut(&mut bytes, number)[bit / 8] ^= 0x80 >> (bit % 8);
            assert_eq!(rule(&bytes), 1);
        }
    }
}

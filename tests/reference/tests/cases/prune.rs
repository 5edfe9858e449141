//! Prune (2026-12): what goes and what stays, what is sound from then on, and the
//! numbers.

use crate::calls;
use crate::common::build::*;
use crate::common::*;
use reference::edition::SECOND;
use reference::image::Image;
use reference::layout::{Page, Slot, ALIVE};
use reference::store::{self, header, page, page_bytes};
use reference::walk;

fn prune(bytes: &mut [u8], version: u32) {
    assert_eq!(calls::prune(bytes, version), 0, "prune {version}");
    assert_sound(bytes);
}

fn is_zero(bytes: &[u8], number: u32) -> bool {
    page_bytes(bytes, number).iter().all(|byte| *byte == 0)
}

#[test]
fn golden_bytes() {
    let before = two_releases();
    let mut bytes = before.clone();
    prune(&mut bytes, 1);
    let mut expected = before.clone();
    // Two roots, the oldest version 1.
    expected[10..13].copy_from_slice(&[0x20, 0x00, 0x01]);
    expected[512..524].copy_from_slice(&[0, 0, 0x10, 8, 0, 0, 0x20, 9, 0, 0, 0, 0]);
    expected[5 * 512..6 * 512].fill(0);
    assert_eq!(bytes, expected);
    prune(&mut bytes, 2);
    expected[10..13].copy_from_slice(&[0x10, 0x00, 0x02]);
    expected[512..520].copy_from_slice(&[0, 0, 0x20, 9, 0, 0, 0, 0]);
    expected[6 * 512..9 * 512].fill(0);
    assert_eq!(bytes, expected);
    // At once as in two steps.
    let mut bytes = before;
    prune(&mut bytes, 2);
    assert_eq!(bytes, expected);
}

#[test]
fn the_field_of_the_oldest_version() {
    let mut bytes = fresh_second(6);
    reference::foreign::raise_current(&mut bytes, 1_048_574);
    prune(&mut bytes, 1_048_574);
    // Bits 84 to 103; the root keeps its slot, and its slot its version.
    assert_eq!(bytes[10..14], [0x1F, 0xFF, 0xFE, 0x00]);
    assert_eq!(slots(&bytes), [(0, 5)]);
    for (at, bit) in [(13, 0x80), (13, 0x01), (511, 0x01)] {
        let mut damaged = bytes.clone();
        damaged[at] |= bit;
        assert_eq!(calls::check(&damaged), (4, 1));
    }
}

/// Reading 12.2.
#[test]
fn to_the_oldest_and_to_the_current() {
    let mut bytes = two_releases();
    let before = bytes.clone();
    prune(&mut bytes, 0);
    assert_eq!(bytes, before);
    prune(&mut bytes, 2);
    let pruned = bytes.clone();
    prune(&mut bytes, 2);
    assert_eq!(bytes, pruned);
}

#[test]
fn versions_below_give_6() {
    let mut bytes = two_releases();
    prune(&mut bytes, 1);
    let mut list = [7; 200];
    assert_eq!(calls::lookup(&bytes, 1, 0), (6, false, 0));
    assert_eq!(calls::range(&bytes, 0, 9, 0, &mut list), (6, 0));
    assert_eq!(calls::visits(&bytes, 1, 0, &mut list), (6, 0));
    assert_eq!(calls::difference(&bytes, 0, 2, &mut list), (6, 0));
    assert_eq!(calls::difference(&bytes, 2, 0, &mut list), (6, 0));
    assert_eq!(calls::difference(&bytes, 0, 0, &mut list), (6, 0));
    assert_eq!(calls::prune(&mut bytes, 0), 6);
    assert_eq!(calls::return_to(&mut bytes, 0), 6);
    assert_eq!(list, [7; 200]);
    // From the oldest on all is as it was.
    assert_eq!(calls::lookup(&bytes, 30, 1), (0, true, 300));
    assert_eq!(calls::lookup(&bytes, 30, 2), (0, false, 0));
    assert_eq!(calls::range(&bytes, 0, 99, 1, &mut list), (0, 41));
    assert_eq!(calls::difference(&bytes, 1, 2, &mut list), (0, 13));
    open(&mut bytes);
    assert_eq!(calls::return_to(&mut bytes, 0), 6);
    assert_eq!(calls::return_to(&mut bytes, 1), 0);
    commit(&mut bytes);
    // Reading 01.4: a stretch begins at the oldest.
    let mut list = [7; 7];
    assert_eq!(calls::life(&bytes, 30, &mut list), (0, 2));
    assert_eq!(list, [1, 2, 300, 3, ALIVE, 300, 7]);
    prune(&mut bytes, 2);
    assert_eq!(calls::life(&bytes, 30, &mut list), (0, 1));
    assert_eq!(list[..3], [3, ALIVE, 300]);
    prune(&mut bytes, 3);
    assert_eq!(calls::life(&bytes, 1, &mut list), (0, 1));
    assert_eq!(list[..3], [3, ALIVE, 10]);
}

/// In 3's place edition 1 too; then 1 by the page size, 4, 6, 8.
#[test]
fn refusals_in_their_order() {
    let refused = |bytes: &[u8], version: u32| {
        let mut lent = bytes.to_vec();
        let number = calls::prune(&mut lent, version);
        assert!(lent == bytes, "{number}");
        number
    };
    let mut bytes = two_releases();
    assert_eq!(refused(&bytes, 3), 6);
    assert_eq!(refused(&bytes, u32::MAX), 6);
    open(&mut bytes);
    // The open version is above the current one.
    assert_eq!(refused(&bytes, 3), 6);
    for version in 0..=2 {
        assert_eq!(refused(&bytes, version), 8);
    }
    bytes[5 * 512 - 1] = 1;
    assert_eq!(refused(&bytes, 9), 4);
    assert_eq!(refused(&bytes[..12 * 512 - 1], 9), 1);
    for edition in [0, 1, 3, 255] {
        bytes[4] = edition;
        assert_eq!(refused(&bytes, 9), 3);
        assert_eq!(refused(&bytes[..5], 9), 3);
    }
    bytes[3] = 0;
    assert_eq!(refused(&bytes, 9), 2);
    assert_eq!(refused(&bytes[..4], 9), 1);
    assert_eq!(refused(&fresh(12), 0), 3);
}

/// Reading 12.1: a slot keeps its own version where it is the oldest one's root.
#[test]
fn a_slot_keeps_its_version() {
    let mut bytes = fresh_second(12);
    for version in 1..=6 {
        open(&mut bytes);
        insert_all(&mut bytes, [version]);
        commit(&mut bytes);
    }
    prune(&mut bytes, 4);
    assert_eq!(slots(&bytes), [(0, 5)]);
    assert_eq!(span(&page(&bytes, 5)), (0, ALIVE));
    assert_eq!(calls::lookup(&bytes, 3, 3).0, 6);
    assert_eq!(calls::lookup(&bytes, 3, 4), (0, true, 30));
}

/// Page 6 is made anew in version 2 and its router in page 8 ends there.
fn an_ended_router() -> Vec<u8> {
    let mut bytes = fresh_second(12);
    open(&mut bytes);
    insert_all(&mut bytes, 1..=41);
    commit(&mut bytes);
    open(&mut bytes);
    for key in 1..=20 {
        assert_eq!(calls::delete(&mut bytes, key), 0);
        assert_eq!(calls::insert(&mut bytes, key, 7), 0);
    }
    commit(&mut bytes);
    let routers = [
        entry(0, 1, 2, 6),
        entry(0, 2, ALIVE, 9),
        entry(22, 1, ALIVE, 7),
    ];
    assert_eq!(page(&bytes, 8).entries, routers);
    assert_eq!(slots(&bytes), [(0, 5), (1, 8)]);
    bytes
}

/// "Freed pages are used again", and routers that ended at or before the oldest
/// may lead to them, whatever they are then.
#[test]
fn freed_pages_are_used_again() {
    let mut bytes = an_ended_router();
    prune(&mut bytes, 2);
    assert!(is_zero(&bytes, 5) && is_zero(&bytes, 6));
    assert_eq!(page(&bytes, 8).entries.len(), 3);
    assert_eq!(slots(&bytes), [(1, 8)]);
    let pruned = bytes.clone();
    open(&mut bytes);
    insert_all(&mut bytes, 42..=63);
    // Page 7 splits into 5 and 6.
    assert_eq!(live_pairs(&page(&bytes, 8), 3).len(), 3);
    assert_eq!(page(&bytes, 5).level, 1);
    assert_eq!(page(&bytes, 6).level, 1);
    assert_eq!(page(&bytes, 8).entries[0], entry(0, 1, 2, 6));
    assert_sound(&bytes);
    // Demand 3 holds after a prune.
    abandon(&mut bytes);
    assert_eq!(bytes, pruned);
    // Without the prune pages 10 and 11 are taken.
    let mut bytes = an_ended_router();
    open(&mut bytes);
    insert_all(&mut bytes, 42..=63);
    assert!(!page(&bytes, 10).is_free() && !page(&bytes, 11).is_free());
}

/// Two leaves under an index page whose routers of old lead to itself, to a free page
/// and to a page freed; pruned to `oldest`.
fn ended_routers(oldest: u32) -> Image {
    let pages = vec![
        leaf(1, ALIVE, 0..8),
        leaf(1, ALIVE, 1000..1008),
        with(
            index(1, ALIVE, &[(0, 6), (1000, 7)]),
            [
                entry(500, 1, 2, 8),
                entry(600, 1, 2, 9),
                entry(700, 2, 3, 5),
            ],
        ),
        Page::free(),
    ];
    let mut image = image_of(&SECOND, 5, false, &[(1, 8)], pages);
    image.slots.remove(0);
    *image.page_mut(5) = Page::free();
    image.header.oldest = oldest;
    image
}

/// A freed page used again as an index page, above the one whose ended router
/// leads to it.
#[test]
fn an_ended_router_to_an_index_page() {
    // Not asked of at all.
    assert_sound(&ended_routers(3).write());
    assert_eq!(calls::check(&ended_routers(2).write()), (4, 3));
    assert_eq!(calls::check(&ended_routers(1).write()), (4, 3));
    // Reading 12.4: its own page's span neither.
    let mut outside = ended_routers(3);
    outside.page_mut(8).entries[1].span.start = 0;
    assert_sound(&outside.write());
    // Rule 1 speaks of every entry.
    outside.page_mut(8).entries[1].value = 10;
    assert_eq!(calls::check(&outside.write()), (4, 1));
}

/// A leaf's entry that ended before the oldest is not skipped.
#[test]
fn an_ended_entry_of_a_leaf() {
    let mut image = ended_routers(3);
    *image.page_mut(6) = leaf(2, ALIVE, 0..8);
    let router = &mut image.page_mut(8).entries[0];
    assert_eq!(*router, entry(0, 1, ALIVE, 6));
    router.span.start = 2;
    assert_sound(&image.write());
    let life = entry(0, 1, 2, 0);
    *image.page_mut(6) = with(leaf(2, ALIVE, 0..8), [life]);
    assert_eq!(calls::check(&image.write()), (4, 3));
    image.page_mut(6).span.start = 1;
    assert_sound(&image.write());
}

/// Freed pages used again at the same level, at another one and as a root, while
/// the one index page of the oldest version has ended routers to all of them.
#[test]
fn used_again_at_another_level_and_as_a_root() {
    // With these routers the root is full: one entry more and it is made anew.
    let ended = (0..38).map(|i| entry(2000 + i, 1, 2, [5, 9, 10][i as usize % 3]));
    let root = with(index(1, ALIVE, &[(0, 6), (1000, 7)]), ended);
    let pages = vec![leaf(1, ALIVE, 0..40), leaf(1, ALIVE, 1000..1008), root];
    let mut image = image_of(&SECOND, 5, false, &[(1, 8)], pages);
    image.slots.remove(0);
    *image.page_mut(5) = Page::free();
    free_pages(&mut image, 3);
    image.header.oldest = 3;
    let before = image.write();
    assert_sound(&before);
    let mut bytes = before.clone();
    open(&mut bytes);
    insert_all(&mut bytes, [40]);
    // Page 6 splits into 5 and 9, and page 8 becomes page 10, the root.
    assert_eq!([5, 9, 10].map(|n| store::level(&bytes, n)), [1, 1, 2]);
    assert_eq!(slots(&bytes), [(1, 8), (6, 10)]);
    assert_eq!(span(&page(&bytes, 8)), (1, 6));
    assert_eq!(page(&bytes, 8).entries.len(), 40);
    let mut released = bytes.clone();
    abandon(&mut bytes);
    assert_eq!(bytes, before);
    commit(&mut released);
    for (version, count) in [(3, 48), (5, 48), (6, 49)] {
        let mut list = [0; 100];
        assert_eq!(
            calls::range(&released, 0, 2000, version, &mut list),
            (0, count)
        );
    }
    assert_eq!(calls::lookup(&released, 40, 6), (0, true, 400));
    // Pages 6 and 8 ended at 6, and go with it.
    prune(&mut released, 6);
    assert!(is_zero(&released, 6) && is_zero(&released, 8));
    assert_eq!(slots(&released), [(6, 10)]);
}

/// Reading 12.4: rule 7 no longer follows.
#[test]
fn rule_7_is_tested() {
    let image = |oldest: u32, open: bool| {
        let pages = vec![
            leaf(1, ALIVE, 0..8),
            leaf(1, ALIVE, 1000..1008),
            with(index(5, ALIVE, &[(0, 6), (1000, 7)]), [entry(500, 1, 2, 9)]),
            Page::free(),
            index(1, 5, &[(0, 6), (1000, 7)]),
        ];
        let slots = [(1, 10), (5, 8)];
        let current = if open { 4 } else { 5 };
        let mut image = image_of(&SECOND, current, open, &slots, pages);
        image.slots.remove(0);
        *image.page_mut(5) = Page::free();
        image.header.oldest = oldest;
        image.write()
    };
    assert_eq!(calls::check(&image(1, true)), (4, 3));
    assert_eq!(calls::check(&image(2, true)), (4, 7));
    assert_sound(&image(2, false));
    let mut bytes = image(2, true);
    let before = bytes.clone();
    assert_eq!(calls::abandon(&mut bytes), 4);
    assert_eq!(bytes, before);
    // Before rule 8, and behind rule 6.
    let mut both = image(2, true);
    store::page_bytes_mut(&mut both, 6)[6] ^= 1;
    assert_eq!(calls::check(&both), (4, 7));
}

/// Reading 12.3: the first slot at or below the oldest, all others above it.
#[test]
fn rule_2_and_the_oldest() {
    let mut bytes = two_releases();
    let with_oldest = |oldest: u32| {
        let mut image = Image::read(&two_releases());
        image.header.oldest = oldest;
        image.write()
    };
    assert_sound(&with_oldest(0));
    assert_eq!(calls::check(&with_oldest(1)), (4, 2));
    assert_eq!(calls::check(&with_oldest(2)), (4, 2));
    assert_eq!(calls::check(&with_oldest(3)), (4, 1));
    // The open version is above the current one.
    let mut image = Image::read(&with_oldest(3));
    image.header.open = true;
    assert_eq!(calls::check(&image.write()), (4, 1));
    prune(&mut bytes, 1);
    let mut image = Image::read(&bytes);
    image.header.oldest = 0;
    assert_eq!(calls::check(&image.write()), (4, 2));
    image.header.oldest = 1;
    assert_sound(&image.write());
    // A lookup judges the same header and slots.
    assert_eq!(calls::lookup(&with_oldest(1), 1, 1), (4, false, 0));
    // A slot's version below the oldest that is no beginning of anything.
    image.slots[0].version = 0;
    image.page_mut(8).span.start = 0;
    assert_sound(&image.write());
    // Every slot's page is used.
    image.slots.push(Slot {
        version: 2,
        root: 5,
    });
    image.slots.remove(1);
    assert_eq!(calls::check(&image.write()), (4, 3));
}

/// Reading 12.5: a used page of which no version from the oldest on is left.
#[test]
fn a_used_page_below_the_oldest() {
    let mut image = Image::read(&an_ended_router());
    image.header.oldest = 2;
    image.slots.remove(0);
    let mut bytes = image.write();
    // Pages 5 and 6 are still there, and nothing reaches them.
    assert!(!page(&bytes, 5).is_free() && !page(&bytes, 6).is_free());
    assert_sound(&bytes);
    prune(&mut bytes, 2);
    assert!(is_zero(&bytes, 5) && is_zero(&bytes, 6));
    let mut pruned = an_ended_router();
    prune(&mut pruned, 2);
    assert_eq!(bytes, pruned);
    // At the oldest it must be reached.
    image.page_mut(6).span.end = 3;
    image.header.current = 3;
    assert_eq!(calls::check(&image.write()), (4, 6));
}

/// Reading 12.7, and rules 4 and 5 below the oldest.
#[test]
fn what_was_wrong_below_the_oldest() {
    let image = |oldest: u32| {
        let mut image = image_of(&SECOND, 9, false, &[(1, 6)], vec![leaf(1, ALIVE, 0..9)]);
        let entries = &mut image.page_mut(6).entries;
        entries[0].span.end = 5;
        entries.insert(1, entry(0, 3, ALIVE, 4));
        if oldest > 0 {
            image.slots.remove(0);
            *image.page_mut(5) = Page::free();
        }
        free_pages(&mut image, 2);
        image.header.oldest = oldest;
        image.write()
    };
    // Key 0 stands twice at versions 3 and 4.
    assert_eq!(calls::check(&image(4)), (4, 4));
    assert_sound(&image(5));
    assert_eq!(calls::check(&image(0)), (4, 4));
    assert_eq!(calls::lookup(&image(5), 0, 5), (0, true, 4));
    let mut list = [0; 6];
    assert_eq!(calls::life(&image(5), 0, &mut list), (0, 1));
    assert_eq!(list[..3], [5, ALIVE, 4]);
    // It goes on: the dead life counts for room and is passed over.
    let mut bytes = image(5);
    open(&mut bytes);
    delete_all(&mut bytes, [0]);
    insert_all(&mut bytes, 20..=48);
    assert_eq!(page(&bytes, 6).entries.len(), 39);
    insert_all(&mut bytes, [49, 50]);
    let root = walk::root(&bytes, 10);
    assert_eq!(page(&bytes, root).level, 2);
}

/// Slots that a prune drops are there for new roots.
#[test]
fn slots_are_used_again() {
    let mut bytes = two_releases();
    prune(&mut bytes, 2);
    assert_eq!(header(&bytes).roots, 1);
    open(&mut bytes);
    insert_all(&mut bytes, 50..=70);
    assert_eq!(header(&bytes).roots, 2);
    assert_eq!(slots(&bytes)[1].0, 3);
    commit(&mut bytes);
    prune(&mut bytes, 3);
    assert_eq!(slots(&bytes).len(), 1);
    assert_eq!(calls::lookup(&bytes, 70, 3), (0, true, 700));
}

/// A prune can't be abandoned: there is no update to abandon, and one that is
/// opened behind it leaves it.
#[test]
fn a_prune_stays() {
    let mut bytes = two_releases();
    prune(&mut bytes, 1);
    assert_eq!(calls::abandon(&mut bytes), 7);
    let pruned = bytes.clone();
    open(&mut bytes);
    assert_eq!(calls::prune(&mut bytes, 1), 8);
    delete_all(&mut bytes, 1..=20);
    abandon(&mut bytes);
    assert_eq!(bytes, pruned);
    assert_eq!(calls::fresh_second(&mut bytes), 0);
    assert_eq!(header(&bytes).oldest, 0);
}

/// A version in which these keys are deleted and inserted again.
fn renew(bytes: &mut [u8], keys: impl IntoIterator<Item = u32>) {
    open(bytes);
    for key in keys {
        let (_, found, value) = calls::lookup(bytes, key, header(bytes).current);
        assert!(found);
        assert_eq!(calls::delete(bytes, key), 0);
        assert_eq!(calls::insert(bytes, key, value.wrapping_add(1)), 0);
    }
    commit(bytes);
    assert_sound(bytes);
}

/// A freed page that becomes a root, while the index page that a kept version
/// reads has an ended router to it.
#[test]
fn an_ended_router_to_a_root() {
    let mut bytes = an_ended_router();
    prune(&mut bytes, 2);
    // Page 9 is made anew in 5, the lowest that is free.
    renew(&mut bytes, 1..=20);
    assert_eq!(live_pairs(&page(&bytes, 8), 3), [(0, 5), (22, 7)]);
    let pruned = bytes.clone();
    open(&mut bytes);
    // Pages 5 and 7 become one, in 6, and that is the root.
    delete_all(&mut bytes, (1..=6).chain(27..=41));
    assert_eq!(slots(&bytes), [(1, 8), (4, 6)]);
    assert_eq!(page(&bytes, 6).level, 1);
    assert_eq!(span(&page(&bytes, 8)), (1, 4));
    assert_eq!(page(&bytes, 8).entries[0], entry(0, 1, 2, 6));
    assert_sound(&bytes);
    let mut released = bytes.clone();
    abandon(&mut bytes);
    assert_eq!(bytes, pruned);
    commit(&mut released);
    for (version, count) in [(2, 41), (3, 41), (4, 20)] {
        let mut list = [0; 100];
        let counted = calls::range(&released, 0, 99, version, &mut list);
        assert_eq!(counted, (0, count));
    }
    prune(&mut released, 4);
    assert_eq!(slots(&released), [(4, 6)]);
    assert_eq!(
        store::page_numbers(&released)
            .filter(|n| !is_zero(&released, *n))
            .count(),
        1
    );
}

/// Releases that renew a leaf each, pruned to the two last ones: index pages are
/// filled with ended routers, whose pages come back as leaves, as index pages and
/// as roots while these routers still stand.
#[test]
fn ended_routers_to_pages_of_every_kind() {
    let mut bytes = fresh_second(12);
    open(&mut bytes);
    insert_all(&mut bytes, 1..=60);
    commit(&mut bytes);
    let (mut leaf, mut index, mut root, mut free) = (0, 0, 0, 0);
    for release in 2..=120u32 {
        let first = 1 + 20 * (release % 3);
        renew(&mut bytes, first..first + 20);
        prune(&mut bytes, release - 1);
        let before = bytes.clone();
        prune(&mut bytes, release - 1);
        assert_eq!(bytes, before);
        let image = Image::read(&bytes);
        for (_, page) in image.used().filter(|(_, page)| page.is_index()) {
            let ended = page.entries.iter().filter(|e| e.span.end < release);
            for router in ended {
                let child = image.page(router.value);
                free += u32::from(child.is_free());
                leaf += u32::from(child.level == 1 && child.span.start >= router.span.end);
                index += u32::from(child.is_index());
                root += u32::from(image.root(release) == router.value);
            }
        }
        open(&mut bytes);
        delete_all(&mut bytes, first..first + 18);
        // With 12 the return is the abandon.
        match calls::return_to(&mut bytes, release - 1) {
            0 => abandon(&mut bytes),
            number => assert_eq!(number, 12),
        }
        assert_eq!(bytes, before);
    }
    println!("to a free page {free}, a leaf {leaf}, an index page {index}, a root {root}");
    assert!(free > 0 && leaf > 0 && index > 0 && root > 0);
}

/// 12 where a page is wanted and none is free, the freed ones counted; 13
/// likewise by the slots that a prune leaves.
#[test]
fn twelve_counts_freed_pages() {
    let mut bytes = fresh_second(9);
    open(&mut bytes);
    insert_all(&mut bytes, 1..=41);
    commit(&mut bytes);
    // Pages 5 (ended), 6, 7 and 8: none is free.
    open(&mut bytes);
    insert_all(&mut bytes, 42..=61);
    assert_eq!(calls::insert(&mut bytes, 62, 620), 12);
    abandon(&mut bytes);
    prune(&mut bytes, 0);
    open(&mut bytes);
    insert_all(&mut bytes, 42..=61);
    assert_eq!(calls::insert(&mut bytes, 62, 620), 12);
    abandon(&mut bytes);
    // Page 5 alone is free, and two are wanted.
    prune(&mut bytes, 1);
    assert!(is_zero(&bytes, 5));
    open(&mut bytes);
    insert_all(&mut bytes, 42..=61);
    assert_eq!(calls::insert(&mut bytes, 62, 620), 12);
    // One is enough where a page is made anew.
    abandon(&mut bytes);
    renew(&mut bytes, 1..=20);
    assert_eq!(live_pairs(&page(&bytes, 8), 2), [(0, 5), (22, 7)]);
    // Page 6 ended at 2; with 41 entries page 7 is made anew.
    renew(&mut bytes, 22..=41);
    open(&mut bytes);
    assert_eq!(calls::insert(&mut bytes, 42, 420), 12);
    abandon(&mut bytes);
    prune(&mut bytes, 2);
    open(&mut bytes);
    assert_eq!(calls::insert(&mut bytes, 42, 420), 0);
    assert_eq!(live_pairs(&page(&bytes, 8), 4), [(0, 5), (22, 6)]);
    assert_sound(&bytes);
}

/// The 513th root, and the slots that a prune leaves.
#[test]
fn thirteen_counts_dropped_slots() {
    let mut image = image_of(&SECOND, 0, false, &[], vec![leaf(1, ALIVE, 1..=32)]);
    for version in 1..=511 {
        image.slots.push(Slot { version, root: 6 });
    }
    image.header.current = 511;
    free_pages(&mut image, 6);
    let grow = |bytes: &mut [u8]| {
        open(bytes);
        insert_all(bytes, 33..=40);
        calls::insert(bytes, 41, 0)
    };
    let mut bytes = image.write();
    assert_sound(&bytes);
    assert_eq!(header(&bytes).roots, 512);
    assert_eq!(grow(&mut bytes), 13);
    abandon(&mut bytes);
    prune(&mut bytes, 0);
    assert_eq!(grow(&mut bytes), 13);
    abandon(&mut bytes);
    // One slot less is enough for one root more.
    prune(&mut bytes, 1);
    assert_eq!(header(&bytes).roots, 511);
    assert_eq!(slots(&bytes)[0], (1, 6));
    assert_eq!(slots(&bytes)[510], (511, 6));
    assert_eq!(grow(&mut bytes), 0);
    assert_eq!(header(&bytes).roots, 512);
    commit(&mut bytes);
    prune(&mut bytes, 512);
    assert_eq!(header(&bytes).roots, 1);
    assert!(page_bytes(&bytes, 1)[4..].iter().all(|byte| *byte == 0));
}

/// What an update ended stays readable: a page that ended right behind the
/// version pruned to is kept, and an open update's own ends count nothing.
#[test]
fn ends_one_behind() {
    let mut bytes = two_releases();
    // Pages 6, 7 and 8 end at 2.
    prune(&mut bytes, 1);
    for number in 6..=8 {
        assert_eq!(page(&bytes, number).span.end, 2);
    }
    assert_eq!(calls::lookup(&bytes, 30, 1), (0, true, 300));
    prune(&mut bytes, 2);
    for number in 6..=8 {
        assert!(is_zero(&bytes, number));
    }
    assert_eq!(calls::lookup(&bytes, 30, 1), (6, false, 0));
    assert_eq!(calls::lookup(&bytes, 35, 2), (0, true, 350));
}

/// A lookup judges the header and all slots by the changed rules, and of its walk
/// nothing of what ended routers lead to.
#[test]
fn what_is_read_of_a_pruned_store() {
    let mut bytes = an_ended_router();
    prune(&mut bytes, 2);
    // The ended router to no page is rule 1 on the walk.
    let mut image = Image::read(&bytes);
    image.page_mut(8).entries[0].value = 4;
    let damaged = image.write();
    assert_eq!(calls::check(&damaged), (4, 1));
    assert_eq!(calls::lookup(&damaged, 1, 2), (4, false, 0));
    assert_eq!(calls::lookup(&damaged, 1, 1), (6, false, 0));
    // To any page it is not asked of.
    for number in 5..12 {
        image.page_mut(8).entries[0].value = number;
        let bytes = image.write();
        assert_sound(&bytes);
        assert_eq!(calls::lookup(&bytes, 1, 2), (0, true, 7));
    }
    // The oldest above current, 4 before 5 and 6.
    image.header.oldest = 3;
    let damaged = image.write();
    assert_eq!(calls::lookup(&damaged, u32::MAX, 0), (4, false, 0));
    assert_eq!(calls::range(&damaged, 2, 1, 0, &mut []), (4, 0));
    // 5 before 6.
    assert_eq!(calls::lookup(&bytes, u32::MAX, 0), (5, false, 0));
    assert_eq!(calls::range(&bytes, 2, 1, 0, &mut []), (5, 0));
    // A life has no 6, and 14 by the stretches that are shown.
    assert_eq!(calls::life(&bytes, u32::MAX, &mut []), (5, 0));
    assert_eq!(calls::life(&bytes, 1, &mut [0; 2]), (14, 1));
}

//! Return to an earlier version (2026-07).

use crate::calls;
use crate::common::build::*;
use crate::common::*;
use reference::calls::raw_insert;
use reference::history::{self, KINDS};
use reference::image::Image;
use reference::layout::{ALIVE, FIRST_BENCH_KEY, HIGHEST_KEY, SLOTS};
use reference::model::{Model, Settings};
use reference::rng::Rng;
use reference::samples::sound_store;
use reference::{store, unjudged, walk};

fn go_back(bytes: &mut [u8], version: u32) {
    assert_eq!(calls::return_to(bytes, version), 0, "return {version}");
    assert_sound(bytes);
    let header = store::header(bytes);
    assert!(header.open);
    let settings = |version| walk::settings(bytes, version);
    assert_eq!(settings(header.last()), settings(version));
    assert_eq!(
        calls::difference(bytes, version, header.last(), &mut []),
        (0, 0)
    );
}

fn set(bytes: &mut [u8], key: u32, value: u32) {
    assert!(matches!(calls::delete(bytes, key), 0 | 11), "delete {key}");
    assert_eq!(calls::insert(bytes, key, value), 0, "insert {key}");
}

fn free_count(bytes: &[u8]) -> usize {
    let numbers = store::page_numbers(bytes);
    numbers.filter(|n| store::level(bytes, *n) == 0).count()
}

/// The steps of a return by single calls, each list made anew at each step: a
/// key that is absent there or has another value goes, the lowest first; where
/// there is none, what is missing comes, the lowest first. The number of the
/// first call that is refused, or 0.
fn step_by_step(bytes: &mut [u8], version: u32) -> u32 {
    let there = walk::settings(bytes, version);
    loop {
        let here = walk::settings(bytes, store::header(bytes).last());
        let wrong = |(key, value): &(&u32, &u32)| there.get(key) != Some(value);
        let missing = |(key, _): &(&u32, &u32)| !here.contains_key(key);
        let number = if let Some((key, _)) = here.iter().find(wrong) {
            calls::delete(bytes, *key)
        } else if let Some((key, value)) = there.iter().find(missing) {
            match *key < FIRST_BENCH_KEY {
                true => calls::insert(bytes, *key, *value),
                false => raw_insert(bytes, *key, *value),
            }
        } else {
            return 0;
        };
        if number != 0 {
            return number;
        }
    }
}

/// A return is the single calls one after the other or, where one of them is
/// refused, the abandon. Its number.
fn is_its_steps(bytes: &[u8], version: u32) -> u32 {
    let mut expected = bytes.to_vec();
    let number = step_by_step(&mut expected, version);
    if number != 0 {
        expected = bytes.to_vec();
        assert_eq!(calls::abandon(&mut expected), 0);
    }
    let mut returned = bytes.to_vec();
    assert_eq!(calls::return_to(&mut returned, version), number);
    assert!(returned == expected, "return {version}: {number}");
    number
}

/// Version 1 has 1 to 20, version 2 besides 21 to 40, version 3 only the even
/// ones of them and 2, 4, 6 with other values. Version 4 is open.
fn three_versions(pages: usize) -> Vec<u8> {
    let mut bytes = fresh(pages);
    open(&mut bytes);
    insert_all(&mut bytes, 1..=20);
    commit(&mut bytes);
    open(&mut bytes);
    insert_all(&mut bytes, 21..=40);
    commit(&mut bytes);
    open(&mut bytes);
    delete_all(&mut bytes, (1..=40).filter(|key| key % 2 == 1));
    for key in [2, 4, 6] {
        set(&mut bytes, key, 7);
    }
    commit(&mut bytes);
    open(&mut bytes);
    bytes
}

#[test]
fn to_the_current_version_changes_no_byte() {
    let mut bytes = fresh(6);
    open(&mut bytes);
    let before = bytes.clone();
    go_back(&mut bytes, 0);
    assert_eq!(bytes, before);
    let mut bytes = three_versions(40);
    let before = bytes.clone();
    go_back(&mut bytes, 3);
    assert_eq!(bytes, before);
    // Reading 07.1: by the settings, whatever happened to pages.
    insert_all(&mut bytes, 100..150);
    delete_all(&mut bytes, 100..150);
    assert_ne!(bytes, before);
    let before = bytes.clone();
    go_back(&mut bytes, 3);
    assert_eq!(bytes, before);
    assert_eq!(calls::commit(&mut bytes), 15);
}

#[test]
fn to_the_current_version_after_earlier_calls() {
    let mut bytes = three_versions(60);
    delete_all(&mut bytes, [2, 8, 40]);
    insert_all(&mut bytes, [1, 8, 41, 42]);
    set(&mut bytes, 10, 1);
    assert_eq!(is_its_steps(&bytes, 3), 0);
    go_back(&mut bytes, 3);
    assert_eq!(calls::commit(&mut bytes), 15);
}

#[test]
fn to_version_0_nothing_is_left() {
    let mut bytes = three_versions(40);
    assert_eq!(is_its_steps(&bytes, 0), 0);
    let mut deleted = bytes.clone();
    delete_all(&mut deleted, (1..=40).filter(|key| key % 2 == 0));
    go_back(&mut bytes, 0);
    assert_eq!(bytes, deleted);
    commit(&mut bytes);
    assert_eq!(calls::range(&bytes, 0, HIGHEST_KEY, 4, &mut []), (0, 0));
    assert_eq!(calls::range(&bytes, 0, HIGHEST_KEY, 3, &mut []), (14, 20));
}

/// Nothing to do at all: both versions are empty.
#[test]
fn to_version_0_from_no_settings() {
    let mut bytes = fresh(6);
    open(&mut bytes);
    insert_all(&mut bytes, [3]);
    commit(&mut bytes);
    open(&mut bytes);
    delete_all(&mut bytes, [3]);
    let before = bytes.clone();
    go_back(&mut bytes, 0);
    assert_eq!(bytes, before);
    // It equals version 0 and not version 1.
    commit(&mut bytes);
}

/// All pages of version 1 ended long ago.
#[test]
fn to_a_version_whose_pages_are_long_dead() {
    let mut bytes = fresh(200);
    open(&mut bytes);
    insert_all(&mut bytes, (0..60).map(|key| 3 * key));
    commit(&mut bytes);
    for round in 0..12 {
        open(&mut bytes);
        for key in (0..60).map(|key| 3 * key) {
            set(&mut bytes, key, round);
        }
        commit(&mut bytes);
    }
    let mut waiting = vec![walk::root(&bytes, 1)];
    while let Some(number) = waiting.pop() {
        let page = store::page(&bytes, number);
        assert!(page.span.end < 13, "page {number}");
        if page.is_index() {
            waiting.extend(page.live(1).map(|router| router.value));
        }
    }
    open(&mut bytes);
    let before = bytes.clone();
    assert_eq!(is_its_steps(&bytes, 1), 0);
    go_back(&mut bytes, 1);
    commit(&mut bytes);
    for version in 0..=13 {
        assert_eq!(
            walk::settings(&bytes, version),
            walk::settings(&before, version)
        );
    }
    let mut list = [0; 120];
    assert_eq!(calls::range(&bytes, 0, HIGHEST_KEY, 14, &mut list), (0, 60));
    assert_eq!(list[2..6], [3, 30, 6, 60]);
}

/// Reading 07.1: what the update has done so far is where the return starts.
#[test]
fn with_earlier_calls_in_the_update() {
    let mut bytes = three_versions(60);
    // Of version 1: gone (8), changed (10), as it was (1), and with another
    // value than ever (3).
    delete_all(&mut bytes, [8]);
    set(&mut bytes, 10, 11);
    insert_all(&mut bytes, [1]);
    set(&mut bytes, 3, 33);
    // Of no version.
    insert_all(&mut bytes, 500..530);
    for version in 0..=3 {
        assert_eq!(is_its_steps(&bytes, version), 0);
        let mut returned = bytes.clone();
        go_back(&mut returned, version);
        let number = calls::commit(&mut returned);
        assert_eq!(number, if version == 3 { 15 } else { 0 });
    }
    abandon(&mut bytes);
    let closed = bytes.clone();
    open(&mut bytes);
    go_back(&mut bytes, 1);
    abandon(&mut bytes);
    assert_eq!(bytes, closed);
}

/// A key with another value "is deleted in the first run and inserted in the
/// second": all deletes come before all inserts, and both in rising order.
#[test]
fn reading_07_1_two_runs_in_rising_order() {
    // Thirty keys change their values, and ten come.
    let mut bytes = fresh(60);
    open(&mut bytes);
    insert_all(&mut bytes, 1..=40);
    commit(&mut bytes);
    open(&mut bytes);
    delete_all(&mut bytes, 31..=40);
    for key in 1..=30 {
        set(&mut bytes, key, 7);
    }
    commit(&mut bytes);
    open(&mut bytes);
    assert_eq!(is_its_steps(&bytes, 1), 0);
    let mut returned = bytes.clone();
    go_back(&mut returned, 1);
    let by = |calls: &[(u32, bool)]| {
        let mut bytes = bytes.clone();
        for &(key, deletes) in calls {
            match deletes {
                true => delete_all(&mut bytes, [key]),
                false => insert_all(&mut bytes, [key]),
            }
        }
        assert_eq!(walk::settings(&bytes, 3), walk::settings(&bytes, 1));
        bytes
    };
    let deletes: Vec<(u32, bool)> = (1..=30).map(|key| (key, true)).collect();
    let inserts: Vec<(u32, bool)> = (1..=40).map(|key| (key, false)).collect();
    assert!(returned == by(&[&deletes[..], &inserts[..]].concat()));
    // Other orders lead to the same settings by other bytes.
    let mut mixed: Vec<(u32, bool)> = deletes.iter().chain(&inserts).copied().collect();
    mixed.sort_by_key(|(key, deletes)| (*key, !deletes));
    assert!(returned != by(&mixed));
    let falling: Vec<(u32, bool)> = inserts.iter().rev().copied().collect();
    assert!(returned != by(&[&deletes[..], &falling[..]].concat()));
}

/// Deletes alone, of which the order shows too.
#[test]
fn deletes_in_rising_order() {
    let mut bytes = fresh(60);
    open(&mut bytes);
    insert_all(&mut bytes, (0..80).filter(|key| key % 5 == 2));
    commit(&mut bytes);
    open(&mut bytes);
    insert_all(&mut bytes, (0..80).filter(|key| key % 5 != 2));
    commit(&mut bytes);
    open(&mut bytes);
    let mut returned = bytes.clone();
    go_back(&mut returned, 1);
    let (mut rising, mut falling) = (bytes.clone(), bytes);
    delete_all(&mut rising, (0..80).filter(|key| key % 5 != 2));
    delete_all(&mut falling, (0..80).rev().filter(|key| key % 5 != 2));
    assert!(returned == rising && returned != falling);
}

#[test]
fn bench_keys_are_let_through() {
    let bench = [FIRST_BENCH_KEY, FIRST_BENCH_KEY + 1, HIGHEST_KEY];
    let mut bytes = fresh(12);
    open(&mut bytes);
    for key in bench {
        assert_eq!(raw_insert(&mut bytes, key, key / 3), 0);
    }
    commit(&mut bytes);
    open(&mut bytes);
    delete_all(&mut bytes, bench);
    insert_all(&mut bytes, [FIRST_BENCH_KEY - 1]);
    commit(&mut bytes);
    open(&mut bytes);
    // One stands there with another value, one is none of version 1's.
    assert_eq!(raw_insert(&mut bytes, HIGHEST_KEY, 1), 0);
    assert_eq!(raw_insert(&mut bytes, HIGHEST_KEY - 1, 1), 0);
    assert_eq!(is_its_steps(&bytes, 1), 0);
    assert_eq!(is_its_steps(&bytes, 2), 0);
    go_back(&mut bytes, 1);
    for key in bench {
        assert_eq!(calls::lookup(&bytes, key, 3), (0, true, key / 3));
        assert_eq!(calls::insert(&mut bytes, key, 1), 5);
    }
    assert_eq!(calls::lookup(&bytes, HIGHEST_KEY - 1, 3), (0, false, 0));
    commit(&mut bytes);
}

/// The update is abandoned, its earlier calls included: `closed` is the store
/// before it was opened.
fn stops(bytes: &[u8], version: u32, number: u32, closed: &[u8]) {
    assert_eq!(is_its_steps(bytes, version), number);
    let mut bytes = bytes.to_vec();
    assert_eq!(calls::return_to(&mut bytes, version), number);
    assert!(bytes == closed);
    assert!(!store::header(&bytes).open);
    // No update is open for a second one.
    assert_eq!(calls::return_to(&mut bytes, version), 7);
    assert_eq!(calls::commit(&mut bytes), 7);
    assert_eq!(calls::abandon(&mut bytes), 7);
}

/// The tree of P2 and no page is free: a delete that leaves fewer than four
/// wants one.
#[test]
fn twelve_in_the_first_run() {
    let mut closed = fresh(9);
    open(&mut closed);
    insert_all(&mut closed, 1..=21);
    commit(&mut closed);
    assert_eq!(free_count(&closed), 0);
    let mut bytes = closed.clone();
    open(&mut bytes);
    // The earlier calls and the return's first eight go in place.
    set(&mut bytes, 21, 1);
    delete_all(&mut bytes, [12]);
    stops(&bytes, 0, 12, &closed);
    let mut steps = bytes.clone();
    delete_all(&mut steps, 1..=7);
    assert_eq!(calls::delete(&mut steps, 8), 12);
}

/// All deletes find room, the inserts do not.
#[test]
fn twelve_in_the_second_run() {
    let mut closed = fresh(6);
    open(&mut closed);
    insert_all(&mut closed, 1..=11);
    commit(&mut closed);
    open(&mut closed);
    set(&mut closed, 11, 1);
    commit(&mut closed);
    let mut bytes = closed.clone();
    open(&mut bytes);
    delete_all(&mut bytes, 1..=11);
    insert_all(&mut bytes, 30..=37);
    stops(&bytes, 1, 12, &closed);
    let mut steps = bytes.clone();
    delete_all(&mut steps, 30..=37);
    insert_all(&mut steps, 1..=8);
    assert_eq!(calls::insert(&mut steps, 9, 90), 12);
}

/// Reading 07.2: to the current version, whose settings are there with no page
/// more, once the update is abandoned.
#[test]
fn reading_07_2_twelve_though_the_outcome_fits() {
    let mut closed = fresh(6);
    open(&mut closed);
    insert_all(&mut closed, 1..=11);
    commit(&mut closed);
    let mut bytes = closed.clone();
    open(&mut bytes);
    delete_all(&mut bytes, 1..=11);
    stops(&bytes, 1, 12, &closed);
    open(&mut closed);
    go_back(&mut closed, 1);
}

/// The same store with fewer pages; those in use stand in front.
fn shortened(bytes: &[u8], pages: usize) -> Vec<u8> {
    let mut image = Image::read(bytes);
    image.pages.truncate(pages - 5);
    image.write()
}

/// Up to some page count it gives 12, and from the next on it is done, by the
/// same pages.
#[test]
fn exactly_enough_pages() {
    let mut bytes = fresh(80);
    open(&mut bytes);
    insert_all(&mut bytes, 1..=60);
    commit(&mut bytes);
    open(&mut bytes);
    for key in 1..=60 {
        set(&mut bytes, key, 7);
    }
    commit(&mut bytes);
    open(&mut bytes);
    let used = 80 - free_count(&bytes);
    for version in [0, 1] {
        let mut roomy = bytes.clone();
        go_back(&mut roomy, version);
        let number = |pages: usize| {
            let mut short = shortened(&bytes, pages);
            assert_sound(&short);
            let number = calls::return_to(&mut short, version);
            if number == 0 {
                assert!(short[256..] == roomy[256..short.len()], "{pages} pages");
            }
            number
        };
        let numbers: Vec<u32> = (used..80).map(number).collect();
        let lacking = numbers.iter().take_while(|number| **number == 12).count();
        assert!(lacking > 0, "{numbers:?}");
        assert!(numbers[lacking..].iter().all(|number| *number == 0));
        assert_eq!(
            is_its_steps(&shortened(&bytes, used + lacking - 1), version),
            12
        );
        assert_eq!(is_its_steps(&shortened(&bytes, used + lacking), version), 0);
    }
}

/// Sixteen settings in a leaf root that was made anew in each version, until
/// all slots are used.
fn many_roots(pages: usize) -> Vec<u8> {
    let mut bytes = fresh(pages);
    unjudged::open(&mut bytes);
    for key in 1..=16 {
        unjudged::insert(&mut bytes, key, 0);
    }
    unjudged::raw_commit(&mut bytes);
    while store::header(&bytes).roots < SLOTS {
        let next = store::header(&bytes).current + 1;
        unjudged::open(&mut bytes);
        for key in 1..=5 {
            unjudged::delete(&mut bytes, key);
        }
        for key in 1..=5 {
            unjudged::insert(&mut bytes, key, next);
        }
        assert_eq!(unjudged::raw_commit(&mut bytes), 0);
    }
    assert_sound(&bytes);
    bytes
}

/// Reading 13: 12 wins over 13, though the slot is taken last.
#[test]
fn thirteen_where_a_slot_is_wanted_too() {
    for (pages, number) in [(261, 12), (262, 13)] {
        let closed = many_roots(pages);
        let current = store::header(&closed).current;
        let mut bytes = closed.clone();
        open(&mut bytes);
        // The page has sixteen entries: five more are too many.
        stops(&bytes, current - 1, number, &closed);
        set(&mut bytes, 16, 1);
        stops(&bytes, 1, number, &closed);
        let mut bytes = closed.clone();
        open(&mut bytes);
        let before = bytes.clone();
        go_back(&mut bytes, current);
        assert_eq!(bytes, before);
    }
}

/// The leaf root is one of the first 255: the open version takes the last
/// slot, and keeps it.
#[test]
fn the_last_slot_is_taken() {
    let mut bytes = many_roots(300);
    let last = store::slot(&bytes, SLOTS - 1);
    let mut image = Image::read(&bytes);
    // Back to the version before the last root, with its update open.
    image.header.current = last.version - 1;
    image.header.open = true;
    bytes = image.write();
    assert_sound(&bytes);
    abandon(&mut bytes);
    open(&mut bytes);
    assert_eq!(store::header(&bytes).roots, SLOTS - 1);
    assert_eq!(is_its_steps(&bytes, 5), 0);
    go_back(&mut bytes, 5);
    assert_eq!(store::header(&bytes).roots, SLOTS);
    go_back(&mut bytes, 9);
    go_back(&mut bytes, 0);
    assert_eq!(store::header(&bytes).roots, SLOTS);
}

/// A delete wants the slot: the index root's last but one child goes.
#[test]
fn thirteen_in_the_first_run() {
    let slots: Vec<(u32, u32)> = (1..SLOTS).map(|version| (version, 8)).collect();
    let pages = vec![
        leaf(1, ALIVE, [10, 20, 30, 40]),
        leaf(1, ALIVE, [100, 110, 120, 130]),
        index(1, ALIVE, &[(0, 6), (100, 7)]),
    ];
    let mut image = image(SLOTS - 1, false, &slots, pages);
    free_pages(&mut image, 4);
    let closed = image.write();
    assert_sound(&closed);
    let mut bytes = closed.clone();
    open(&mut bytes);
    stops(&bytes, 0, 13, &closed);
    assert_eq!(calls::delete(&mut bytes, 10), 13);
    // With one slot fewer it goes on to the end.
    image.slots.pop();
    let mut bytes = image.write();
    open(&mut bytes);
    go_back(&mut bytes, 0);
}

#[test]
fn six_above_current_and_seven_with_none_open() {
    let mut bytes = three_versions(40);
    let before = bytes.clone();
    for version in [4, 5, ALIVE - 1, ALIVE, u32::MAX] {
        assert_eq!(calls::return_to(&mut bytes, version), 6);
    }
    assert_eq!(bytes, before);
    abandon(&mut bytes);
    let before = bytes.clone();
    // Reading 07.3: "the smaller".
    for (version, number) in [(0, 7), (3, 7), (4, 6), (u32::MAX, 6)] {
        assert_eq!(calls::return_to(&mut bytes, version), number);
    }
    assert_eq!(bytes, before);
    let mut bytes = fresh(6);
    assert_eq!(calls::return_to(&mut bytes, 0), 7);
    assert_eq!(calls::return_to(&mut bytes, 1), 6);
}

#[test]
fn judged_before_all_else() {
    let mut bytes = three_versions(40);
    for (at, number) in [(0, 2), (4, 3), (90, 4), (39 * 256, 4)] {
        for version in [0, 3, 4, u32::MAX] {
            let mut damaged = bytes.clone();
            damaged[at] ^= 0x40;
            let before = damaged.clone();
            assert_eq!(calls::return_to(&mut damaged, version), number);
            assert_eq!(damaged, before);
            // 2 and 3 come before the length (2026-08).
            let number = if number < 4 { number } else { 1 };
            let cut = &mut damaged[..40 * 256 - 1];
            assert_eq!(calls::return_to(cut, version), number);
        }
    }
    assert_eq!(calls::return_to(&mut [], 0), 1);
    assert_eq!(calls::return_to(&mut bytes, 3), 0);
}

#[test]
fn twice_in_one_update() {
    let mut bytes = three_versions(80);
    go_back(&mut bytes, 1);
    let once = bytes.clone();
    go_back(&mut bytes, 1);
    assert_eq!(bytes, once);
    go_back(&mut bytes, 2);
    go_back(&mut bytes, 3);
    assert_eq!(calls::commit(&mut bytes), 15);
    assert_eq!(is_its_steps(&bytes, 1), 0);
    go_back(&mut bytes, 1);
    insert_all(&mut bytes, [99]);
    commit(&mut bytes);
    assert_eq!(calls::lookup(&bytes, 99, 4), (0, true, 990));
    assert_eq!(calls::lookup(&bytes, 2, 4), (0, true, 20));
}

/// "Going back is also a release": it is committed, and every older version
/// reads as before, by each key.
#[test]
fn then_commit_and_read_every_older_version() {
    let before = three_versions(80);
    for (version, number) in [(0, 0), (1, 0), (2, 0), (3, 15)] {
        let mut bytes = before.clone();
        go_back(&mut bytes, version);
        assert_eq!(calls::commit(&mut bytes), number);
        for key in 0..=42 {
            for old in 0..=3 {
                let answer = calls::lookup(&bytes, key, old);
                assert_eq!(answer, calls::lookup(&before, key, old));
            }
            let answer = calls::lookup(&bytes, key, 4);
            assert_eq!(answer, calls::lookup(&before, key, version));
        }
    }
}

/// And on from there: a return to the version between, made by a return.
#[test]
fn there_and_back_over_many_releases() {
    let mut bytes = three_versions(250);
    for round in 0..12 {
        let version = [1, 3, 2][round as usize % 3];
        go_back(&mut bytes, version);
        set(&mut bytes, 1000 + round, round);
        commit(&mut bytes);
        open(&mut bytes);
    }
    let model = Model::of_store(&bytes);
    for round in 0..12 {
        let mut expected = model.at([1, 3, 2][round as usize % 3]).clone();
        expected.insert(1000 + round, round);
        assert_eq!(model.at(4 + round), &expected);
    }
}

/// A store lent with an update open: the slot names an inactive root, and a
/// leaf was renewed, far from the one that a return begins with. No page is
/// free.
#[test]
fn reading_07_4_a_store_lent_with_an_update_open() {
    let mut image = image(1, true, &[(1, 9), (2, 9)], three_under_a_root());
    renew_leaf(&mut image, 9, 8, 10);
    let bytes = image.write();
    assert_sound(&bytes);
    let mut abandoned = bytes.clone();
    abandon(&mut abandoned);
    stops(&bytes, 0, 12, &abandoned);
    assert_eq!(is_its_steps(&bytes, 1), 0);
}

/// Histories and stores from elsewhere, an update open in each: a return to
/// some version is its steps.
#[test]
fn each_return_is_its_steps() {
    let mut given = [0u64; 14];
    let mut lengths = 0;
    for seed in 0..rounds(120) {
        let mut rng = Rng::new(seed);
        let pages = 6 + (seed as usize * 5) % 24;
        let (_, mut bytes) = history::calls(seed, KINDS[seed as usize % 4], pages, 160);
        if rng.once_in(2) {
            bytes = sound_store(seed);
        }
        if unjudged::open(&mut bytes) == 9 {
            continue;
        }
        for _ in 0..rng.below(8) {
            unjudged::insert(&mut bytes, rng.below(3000), rng.word());
        }
        let header = store::header(&bytes);
        let here = walk::settings(&bytes, header.last());
        for version in [0, header.current, rng.between(0, header.current)] {
            let there = walk::settings(&bytes, version);
            let number = is_its_steps(&bytes, version);
            given[number as usize] += 1;
            lengths += differing(&here, &there);
            if number == 0 {
                go_back(&mut bytes.clone(), version);
            }
        }
    }
    println!("numbers given: {given:?}, settings that differed: {lengths}");
    assert!(given[0] > 100 && given[12] > 20, "{given:?}");
    assert_eq!(given[0] + given[12] + given[13], given.iter().sum());
}

fn differing(one: &Settings, other: &Settings) -> usize {
    reference::difference::differences(one, other).len()
}

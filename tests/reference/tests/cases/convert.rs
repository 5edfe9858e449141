//! The converter (2026-08): every committed version reads the same, the replay's
//! pages are the page rules', and each refusal in its place.

use std::collections::BTreeSet;

use crate::calls;
use crate::common::*;
use reference::calls::raw_insert;
use reference::edition::SECOND;
use reference::foreign::raise_current;
use reference::image::Image;
use reference::layout::{ALIVE, FIRST_BENCH_KEY, HIGHEST_KEY, HIGHEST_VERSION};
use reference::samples::sound_store;
use reference::store::{self, header, page, page_bytes};
use reference::{unjudged, walk};

/// Bytes to convert into, none of which is zero.
fn lent(pages: usize) -> Vec<u8> {
    vec![0xEE; pages * 512]
}

fn converted(source: &[u8], pages: usize) -> Vec<u8> {
    let mut target = lent(pages);
    assert_eq!(calls::convert(source, &mut target), 0);
    reads_the_same(source, &target);
    target
}

/// "So that every committed version reads the same": asked for at each version
/// at which anything changes in either, and beside it.
pub fn reads_the_same(source: &[u8], target: &[u8]) {
    assert_sound(target);
    let (old, new) = (header(source), header(target));
    assert_eq!((new.edition, new.open), (&SECOND, false));
    assert_eq!(new.current, old.current);
    let changing = [source, target].map(|bytes| Image::read(bytes).turning_points());
    let near = |version: &u32| [version.saturating_sub(1), *version, version + 1];
    let versions: BTreeSet<u32> = changing.iter().flatten().flat_map(near).collect();
    for version in versions.into_iter().filter(|v| *v <= old.current) {
        let settings = |bytes| walk::settings(bytes, version);
        assert_eq!(settings(source), settings(target), "version {version}");
    }
}

#[test]
fn a_fresh_store() {
    assert_eq!(converted(&fresh(6), 6), fresh_second(6));
    assert_eq!(converted(&fresh(4096), 6), fresh_second(6));
}

/// Keys 1 to 21 in version 1, keys 12 to 18 gone in version 2: pages 5 to 9 of
/// edition 1, and page 5 alone of edition 2.
#[test]
fn golden_bytes() {
    let source = split_and_merged(fresh(16), 1..=21, 12..=18);
    let target = converted(&source, 6);
    let mut expected = fresh_second(6);
    // Current 2; a leaf of 21 entries, of which 14 live.
    expected[8] = 0x01;
    expected[5 * 512..5 * 512 + 2].copy_from_slice(&[0x15, 0x40]);
    expected[5 * 512 + 6] = 0xCE;
    for key in 1..=21u8 {
        let end = match key {
            12..=18 => [0x10, 0x00, 0x02],
            _ => [0x1F, 0xFF, 0xFF],
        };
        let value = (u32::from(key) * 10).to_be_bytes();
        let entry = [[0, 0, key], [0, 0, end[0]], [end[1], end[2], value[0]]].concat();
        let at = 5 * 512 + 16 + 12 * (usize::from(key) - 1);
        expected[at..at + 9].copy_from_slice(&entry);
        expected[at + 9..at + 12].copy_from_slice(&value[1..]);
    }
    assert_eq!(target, expected);
}

/// Deletes before inserts: twenty keys go and twenty others come in one version.
/// The page has 40 entries; the first insert finds 20 live beside it, so one new
/// page, which then takes them all.
#[test]
fn deletes_come_first() {
    let mut source = fresh(32);
    open(&mut source);
    insert_all(&mut source, 1..=40);
    commit(&mut source);
    open(&mut source);
    for key in 1..=20 {
        insert_all(&mut source, [100 + key]);
        delete_all(&mut source, [key]);
    }
    commit(&mut source);
    let target = converted(&source, 9);
    assert_eq!(slots(&target), [(0, 5), (2, 6)]);
    let six = page(&target, 6);
    assert_eq!(live_keys(&six, 2).len(), 40);
    assert!(page(&target, 7).is_free());
}

/// Inserts in rising key order: the 41st that comes is the highest, so it is the
/// lower half that has the odd one, and no other order of inserts leaves these
/// pages.
#[test]
fn inserts_rise() {
    let mut source = fresh(64);
    open(&mut source);
    for key in (1..=82).rev() {
        insert_all(&mut source, [key]);
    }
    commit(&mut source);
    let target = converted(&source, 16);
    let mut single = fresh_second(16);
    open(&mut single);
    insert_all(&mut single, 1..=82);
    commit(&mut single);
    assert_eq!(target, single);
    let counts: Vec<usize> = (6..10).map(|n| page(&target, n).entries.len()).collect();
    assert_eq!(counts, [21, 21, 3, 40]);
}

/// Deletes in rising key order: of leaves of 21, 21 and 40 the first runs low
/// before the second does, and takes it along; the third stays.
#[test]
fn deletes_rise() {
    let mut source = fresh(64);
    open(&mut source);
    insert_all(&mut source, 1..=82);
    commit(&mut source);
    open(&mut source);
    delete_all(&mut source, (1..=14).chain(22..=35));
    commit(&mut source);
    let target = converted(&source, 16);
    let root = page(&target, walk::root(&target, 2));
    let leaves: Vec<usize> = root
        .live(2)
        .map(|router| page(&target, router.value).live(2).count())
        .collect();
    assert_eq!(leaves, [14, 40]);
}

/// A key with another value is deleted and inserted, one with the same value
/// stays.
#[test]
fn changed_values_and_values_that_stay() {
    let mut source = fresh(16);
    open(&mut source);
    insert_all(&mut source, 1..=3);
    commit(&mut source);
    open(&mut source);
    delete_all(&mut source, 1..=3);
    insert_all(&mut source, [1, 3]);
    assert_eq!(calls::insert(&mut source, 2, 7), 0);
    commit(&mut source);
    let target = converted(&source, 6);
    let expected = [
        entry(1, 1, ALIVE, 10),
        entry(2, 1, 2, 20),
        entry(2, 2, ALIVE, 7),
        entry(3, 1, ALIVE, 30),
    ];
    assert_eq!(page(&target, 5).entries, expected);
}

#[test]
fn bench_keys_and_empty_releases_from_before() {
    let mut source = fresh(16);
    open(&mut source);
    assert_eq!(raw_insert(&mut source, FIRST_BENCH_KEY, 1), 0);
    assert_eq!(raw_insert(&mut source, HIGHEST_KEY, 2), 0);
    commit(&mut source);
    for _ in 0..3 {
        open(&mut source);
        commit_as_before(&mut source);
    }
    open(&mut source);
    delete_all(&mut source, [HIGHEST_KEY]);
    commit(&mut source);
    let mut target = converted(&source, 6);
    assert_eq!(header(&target).current, 5);
    assert_eq!(calls::lookup(&target, HIGHEST_KEY, 4), (0, true, 2));
    assert_eq!(calls::lookup(&target, HIGHEST_KEY, 5), (0, false, 0));
    // It goes on as any store does.
    open(&mut target);
    assert_eq!(calls::commit(&mut target), 15);
    assert_eq!(calls::insert(&mut target, HIGHEST_KEY, 2), 5);
    assert_eq!(calls::return_to(&mut target, 4), 0);
    assert_eq!(calls::commit(&mut target), 0);
}

/// The number of a refusal that leaves the target untouched.
fn refused(source: &[u8], target: &[u8]) -> u32 {
    let mut lent = target.to_vec();
    let number = calls::convert(source, &mut lent);
    assert!(lent == target, "{number}");
    number
}

fn wrong_targets() -> Vec<Vec<u8>> {
    let lengths = [
        0,
        1,
        512,
        5 * 512,
        6 * 256,
        6 * 512 - 1,
        6 * 512 + 1,
        13 * 256,
    ];
    let mut targets: Vec<Vec<u8>> = lengths.map(|length| vec![0xEE; length]).to_vec();
    targets.push(lent(4097));
    targets
}

#[test]
fn each_refusal_and_their_order() {
    let good = lent(6);
    let mut open_one = fresh(6);
    open(&mut open_one);
    assert_eq!(refused(&open_one, &good), 8);
    let mut unsound = open_one.clone();
    unsound[255] = 1;
    assert_eq!(refused(&unsound, &good), 4);
    unsound[4] = 3;
    for target in wrong_targets() {
        // A source that is good, open, unsound; of the wrong length; of another
        // edition; no store; too short.
        assert_eq!(refused(&fresh(6), &target), 1);
        assert_eq!(refused(&open_one, &target), 1);
        let mut source = open_one.clone();
        source[255] = 1;
        assert_eq!(refused(&source, &target), 1);
        assert_eq!(refused(&source[..6 * 256 - 1], &target), 1);
        for edition in [0, 2, 3, 255] {
            source[4] = edition;
            assert_eq!(refused(&source, &target), 3);
            assert_eq!(refused(&source[..5], &target), 3);
        }
        source[0] = 0;
        assert_eq!(refused(&source, &target), 2);
        assert_eq!(refused(&source[..5], &target), 2);
        assert_eq!(refused(&source[..4], &target), 1);
        assert_eq!(refused(&[], &target), 1);
    }
    for length in [5, 256, 5 * 256, 6 * 256 - 1, 6 * 256 + 1] {
        let mut source = fresh(7);
        source.truncate(length);
        assert_eq!(refused(&source, &good), 1);
    }
    assert_eq!(refused(&fresh(6)[..4], &good), 1);
}

/// "A source not of edition 1 gives 3", a sound one of edition 2 too.
#[test]
fn a_source_of_edition_2() {
    for pages in [6, 12] {
        let mut source = fresh_second(pages);
        assert_eq!(refused(&source, &lent(6)), 3);
        open(&mut source);
        assert_eq!(refused(&source, &lent(6)), 3);
        source.truncate(1000);
        assert_eq!(refused(&source, &lent(6)), 3);
    }
}

/// Where pages run out the target is a fresh store of its own size.
#[test]
fn twelve_leaves_a_fresh_target() {
    let mut source = fresh(32);
    for version in 0..3 {
        open(&mut source);
        insert_all(&mut source, 30 * version..30 * version + 30);
        commit(&mut source);
    }
    // Versions 1 and 2 fit nowhere but in a root above two leaves.
    for pages in [6, 7, 8] {
        let mut target = lent(pages);
        assert_eq!(calls::convert(&source, &mut target), 12, "{pages}");
        assert_eq!(target, fresh_second(pages));
    }
    let mut done = 0;
    for pages in 9..24 {
        let mut target = lent(pages);
        match calls::convert(&source, &mut target) {
            0 => {
                reads_the_same(&source, &target);
                done += 1;
            }
            number => {
                assert_eq!((number, done), (12, 0), "{pages}");
                assert_eq!(target, fresh_second(pages));
            }
        }
    }
    assert!(done > 0);
}

/// 22 keys of which one gets another value in each version.
fn few_keys_many_versions(current: u32) -> Vec<u8> {
    let mut bytes = fresh(1200);
    unjudged::open(&mut bytes);
    for key in 1..=22 {
        assert_eq!(unjudged::insert(&mut bytes, key, 0), 0);
    }
    unjudged::raw_commit(&mut bytes);
    for version in 2..=current {
        unjudged::open(&mut bytes);
        assert_eq!(unjudged::delete(&mut bytes, 1 + version % 22), 0);
        assert_eq!(unjudged::insert(&mut bytes, 1 + version % 22, version), 0);
        unjudged::raw_commit(&mut bytes);
    }
    bytes
}

/// In edition 2 the 22 keys stand in one leaf, the root. It has 40 entries at
/// version 19 and is made anew at 20, and so on every 19 versions: the 512th
/// slot goes to version 9,710, and 9,729 wants another. The source has two
/// leaves under its root, and few roots.
#[test]
fn thirteen_where_the_source_has_slots_left() {
    let source = few_keys_many_versions(9729);
    assert!(header(&source).roots < 64);
    let mut target = lent(600);
    assert_eq!(calls::convert(&source, &mut target), 13);
    assert_eq!(target, fresh_second(600));
    // Of several steps the first that is refused: here a page, for slot 512.
    let mut target = lent(516);
    assert_eq!(calls::convert(&source, &mut target), 12);
    assert_eq!(target, fresh_second(516));
}

#[test]
fn the_last_slot_is_enough() {
    let source = few_keys_many_versions(9728);
    let mut target = lent(517);
    assert_eq!(calls::convert(&source, &mut target), 0);
    assert_sound(&target);
    assert_eq!(header(&target).roots, 512);
    assert_eq!(slots(&target)[511], (9710, 516));
    for version in [0, 1, 19, 20, 5000, 9709, 9710, 9728] {
        let settings = |bytes| walk::settings(bytes, version);
        assert_eq!(settings(&source), settings(&target), "version {version}");
    }
}

/// Releases about version 1,000,000 and at the last version there is; the
/// versions between them are empty.
#[test]
fn versions_beyond_a_million() {
    let mut source = fresh(32);
    let mut keys = 0;
    for current in [0, 999_998, 1_000_000, 1_000_001, HIGHEST_VERSION - 1] {
        raise_current(&mut source, current);
        open(&mut source);
        insert_all(&mut source, keys..keys + 15);
        if keys > 0 {
            delete_all(&mut source, keys - 10..keys);
        }
        keys += 15;
        commit(&mut source);
    }
    assert_eq!(header(&source).current, HIGHEST_VERSION);
    let mut target = converted(&source, 16);
    assert_eq!(calls::open(&mut target), 9);
    assert_eq!(calls::lookup(&target, 0, HIGHEST_VERSION), (0, true, 0));
    let mut list = [0; 9];
    assert_eq!(calls::life(&target, 5, &mut list), (0, 1));
    assert_eq!(list[..3], [1, 999_999, 50]);
    // No release at all, and a million empty versions.
    let mut source = fresh(6);
    raise_current(&mut source, 1_000_003);
    let target = converted(&source, 6);
    let mut expected = fresh_second(6);
    raise_current(&mut expected, 1_000_003);
    assert_eq!(target, expected);
}

/// Stores from elsewhere: nothing of them but their settings matters.
#[test]
fn stores_from_elsewhere() {
    let (mut done, mut opened) = (0, 0);
    for seed in 0..rounds(60) {
        let mut source = sound_store(seed);
        if header(&source).open {
            let target = lent(6);
            assert_eq!(refused(&source, &target), 8);
            commit_as_before(&mut source);
            opened += 1;
        }
        let pages = store::page_count(&source) as usize;
        let mut target = lent(pages);
        match calls::convert(&source, &mut target) {
            0 => {
                done += 1;
                reads_the_same(&source, &target);
                nothing_but_settings_matters(&source, &target);
            }
            12 => assert_eq!(target, fresh_second(pages), "seed {seed}"),
            number => panic!("seed {seed}: {number}"),
        }
    }
    assert!(done > 20 && opened > 10, "{done} {opened}");
}

/// The bytes that the single calls make which the source's differences say.
fn nothing_but_settings_matters(source: &[u8], target: &[u8]) {
    let current = header(source).current;
    if current > 300 {
        return;
    }
    let mut single = vec![0; target.len()];
    assert_eq!(reference::calls::fresh_second(&mut single), 0);
    for version in 1..=current {
        unjudged::open(&mut single);
        let mut list = vec![0; 80_000];
        let (_, count) = unjudged::difference(source, version - 1, version, &mut list);
        let rows = || list.chunks_exact(4).take(count as usize);
        for row in rows().filter(|row| row[1] > 0) {
            assert_eq!(unjudged::delete(&mut single, row[0]), 0);
        }
        for row in rows().filter(|row| row[1] != 1) {
            assert_eq!(unjudged::raw_insert(&mut single, row[0], row[3]), 0);
        }
        unjudged::raw_commit(&mut single);
    }
    assert!(single == target);
    assert_eq!(page_bytes(target, 0), page_bytes(&single, 0));
}

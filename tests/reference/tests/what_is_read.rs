//! The cases of `cases/what_is_read.rs` by this program, which `tests/host` has
//! made by both; and lookups and ranges on damaged stores beside a second
//! reader, which shares no code.

mod common;

#[path = "cases/what_is_read.rs"]
mod what_is_read;

use std::collections::{BTreeMap, BTreeSet};

use common::{reader, rounds};
use reference::calls;
use reference::damage::{kinds, tamper};
use reference::edition::{Edition, FIRST, SECOND};
use reference::layout::{FIRST_PAGE, HIGHEST_KEY, PAGE_BYTES};
use reference::rng::Rng;
use reference::samples::sound_store_of;
use reference::wild::wild_store_of;
use reference::{store, walk};

/// How often each number was given, by lookups and by ranges.
type Tally = BTreeMap<(&'static str, u32), u64>;

/// Keys that stand somewhere in the bytes, and their neighbours.
fn keys_in(bytes: &[u8], rng: &mut Rng) -> Vec<u32> {
    let mut keys = vec![0, HIGHEST_KEY, HIGHEST_KEY + 1, rng.below(HIGHEST_KEY)];
    let pages = store::page_numbers(bytes).end.saturating_sub(FIRST_PAGE);
    for _ in 0..10 {
        if pages == 0 {
            break;
        }
        let page = store::page(bytes, FIRST_PAGE + rng.below(pages));
        let near = |key: u32| key.wrapping_add(rng.below(3)).wrapping_sub(1);
        keys.extend(page.entries.first().map(|entry| entry.key).map(near));
        keys.extend(page.entries.last().map(|entry| entry.key));
    }
    keys
}

/// Edition 2 once in four.
fn some_edition(seed: u64) -> &'static Edition {
    match seed % 4 {
        3 => &SECOND,
        _ => &FIRST,
    }
}

/// A lookup and some ranges, by this program and by the second reader; false
/// where the second one's walk is too long.
fn read_alike(bytes: &[u8], rng: &mut Rng, tally: &mut Tally) -> bool {
    let keys = keys_in(bytes, rng);
    let last = match bytes.len() >= PAGE_BYTES {
        true => store::header(bytes).last(),
        false => 0,
    };
    let mut all = true;
    for _ in 0..6 {
        let version = rng.below(last.min(3000) + 2).max(rng.below(2) * last);
        let (low, high) = (
            *rng.pick(&keys).unwrap_or(&0),
            *rng.pick(&keys).unwrap_or(&0),
        );
        let (number, found, value) = calls::lookup(bytes, low, version);
        if let Some((expected, pair)) = reader::read(bytes, (low, low), version, true) {
            let answer = (
                expected,
                !pair.is_empty(),
                pair.get(1).copied().unwrap_or(0),
            );
            assert_eq!((number, found, value), answer, "{low} at {version}");
            *tally.entry(("lookup", number)).or_default() += 1;
        }
        let high = if rng.once_in(8) { high } else { low.max(high) };
        match reader::read(bytes, (low, high), version, false) {
            Some((expected, listed)) => {
                let number = range_alike(bytes, (low, high), version, expected, &listed, rng);
                *tally.entry(("range", number)).or_default() += 1;
            }
            None => all = false,
        }
    }
    all
}

fn range_alike(
    bytes: &[u8],
    (low, high): (u32, u32),
    version: u32,
    expected: u32,
    listed: &[u32],
    rng: &mut Rng,
) -> u32 {
    let room = (listed.len() + rng.below(4) as usize).saturating_sub(1);
    let short = expected == 0 && room < listed.len();
    let expected = if short { 14 } else { expected };
    let mut list = vec![7; room];
    let answer = calls::range(bytes, low, high, version, &mut list);
    let count = listed.len() as u64 / 2;
    assert_eq!(answer, (expected, count), "{low} to {high} at {version}");
    let written = if expected == 0 { listed } else { &[] };
    assert_eq!(&list[..written.len()], written);
    assert!(list[written.len()..].iter().all(|number| *number == 7));
    expected
}

#[test]
fn damaged_stores_beside_a_second_reader() {
    let mut tally = Tally::new();
    let kinds = kinds();
    let mut too_long = 0;
    for seed in 0..rounds(400) {
        let mut rng = Rng::new(seed);
        let sound = sound_store_of(some_edition(seed), seed);
        for kind in &kinds {
            let mut bytes = sound.clone();
            if kind.make(&mut bytes, &mut rng) {
                too_long += u32::from(!read_alike(&bytes, &mut rng, &mut tally));
            }
        }
        for _ in 0..50 {
            let mut bytes = sound.clone();
            tamper::change_some(&mut bytes, 4, 3, &mut rng);
            too_long += u32::from(!read_alike(&bytes, &mut rng, &mut tally));
        }
    }
    println!("{tally:?}, {too_long} too long");
    for number in [0, 4, 5, 6] {
        assert!(tally[&("lookup", number)] > 1000, "{number}: {tally:?}");
        assert!(tally[&("range", number)] > 1000, "{number}: {tally:?}");
    }
    assert!(tally[&("range", 14)] > 1000, "{tally:?}");
    assert!(too_long < 100);
}

/// Walks that no tree has: pages met again, keys that repeat and fall, routers
/// that lead nowhere.
#[test]
fn wild_stores_beside_a_second_reader() {
    let mut tally = Tally::new();
    let (mut too_long, mut repeated) = (0, 0);
    for seed in 0..rounds(20_000) {
        let mut rng = Rng::new(seed);
        let bytes = wild_store_of(some_edition(seed), &mut rng);
        too_long += u32::from(!read_alike(&bytes, &mut rng, &mut tally));
        let mut list = [0; 400];
        let last = store::header(&bytes).last();
        let (_, count) = calls::range(&bytes, 3, HIGHEST_KEY, last, &mut list);
        let listed = &list[..2 * (count as usize).min(200)];
        let keys: Vec<u32> = listed.chunks_exact(2).map(|pair| pair[0]).collect();
        repeated += u32::from(!keys.is_sorted_by(|one, other| one < other));
    }
    println!("{tally:?}, {too_long} too long, {repeated} not in order");
    for number in [0, 4, 6] {
        assert!(tally[&("lookup", number)] > 1000, "{number}: {tally:?}");
        assert!(tally[&("range", number)] > 1000, "{number}: {tally:?}");
    }
    assert!(repeated > 1000 && too_long < 2000);
}

/// The pages that a range walks on a sound store.
fn walked(bytes: &[u8], low: u32, high: u32, version: u32) -> BTreeSet<u32> {
    let mut keys = vec![low];
    let settings = walk::range(bytes, low, high, version);
    keys.extend(settings.into_iter().map(|(key, _)| key));
    // Where a leaf begins, too: it may show nothing of the range.
    let image = reference::image::Image::read(bytes);
    let index = image.used().filter(|(_, page)| page.is_index());
    let routers = index.flat_map(|(_, page)| page.live(version).map(|router| router.key));
    keys.extend(routers.filter(|key| (low..=high).contains(key)));
    let paths = keys.into_iter().map(|key| walk::path(bytes, key, version));
    paths.flatten().map(|step| step.page).collect()
}

/// Any bytes at all in the pages that a lookup or a range does not walk: its
/// answer is what it was. A bit set that is not defined in one that it walks: 4.
#[test]
fn damage_on_and_off_the_walk() {
    let mut compared = [0u64; 2];
    for seed in 0..rounds(500) {
        let mut rng = Rng::new(seed);
        let sound = sound_store_of(some_edition(seed), seed);
        let last = store::header(&sound).last();
        let keys: Vec<u32> = keys_in(&sound, &mut rng);
        let keys: Vec<u32> = keys.into_iter().filter(|key| *key <= HIGHEST_KEY).collect();
        for _ in 0..6 {
            let (one, other) = (*rng.pick(&keys).unwrap(), *rng.pick(&keys).unwrap());
            let (low, high) = (one.min(other), one.max(other));
            let version = rng.between(store::header(&sound).oldest, last);
            let walked = walked(&sound, low, high, version);
            let mut bytes = sound.clone();
            for number in store::page_numbers(&sound).filter(|n| !walked.contains(n)) {
                for byte in store::page_bytes_mut(&mut bytes, number) {
                    *byte = rng.word() as u8;
                }
            }
            let answers = |bytes: &[u8]| {
                let mut list = vec![7; 400];
                let answer = calls::range(bytes, low, high, version, &mut list);
                (answer, list, calls::lookup(bytes, low, version))
            };
            assert_eq!(answers(&bytes), answers(&sound));
            compared[0] += 1;
            let walked: Vec<u32> = walked.into_iter().collect();
            let page = *rng.pick(&walked).unwrap() as usize;
            let edition = Edition::of(&sound);
            let bit = rng.between(edition.head_end() as u32, 127) as usize;
            bytes[page * edition.page_bytes + bit / 8] ^= 0x80 >> (bit % 8);
            assert_eq!(answers(&bytes).0, (4, 0));
            compared[1] += 1;
        }
    }
    println!("off and on the walk: {compared:?}");
    assert!(compared[0] > 2000);
}

/// Reading 04.7: 20 routers on each of six levels, all of them followed.
#[test]
fn a_count_of_20_to_the_seventh() {
    let bytes = what_is_read::all_ways_to_one_leaf(7);
    let all = calls::range(&bytes, 0, HIGHEST_KEY, 1, &mut []);
    assert_eq!(all, (14, 1_280_000_000));
    // Nothing in the leaf is asked for, and each way is still judged.
    assert_eq!(calls::range(&bytes, 0, 900, 1, &mut []), (0, 0));
    let mut damaged = bytes.clone();
    damaged[6 * 256 + 15] = 1;
    assert_eq!(calls::range(&damaged, 0, 900, 1, &mut []), (4, 0));
    // One setting of the leaf's, as often as the leaf is met.
    let one = calls::range(&bytes, 0, 1000, 1, &mut []);
    assert_eq!(one, (14, 64_000_000));
}

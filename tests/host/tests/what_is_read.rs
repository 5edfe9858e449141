//! Lookups and ranges judge only what they read (2026-04), by both programs:
//! number, result, count and every number of the list.

#[path = "common/mod.rs"]
mod beside;

#[path = "../../reference/tests/common/mod.rs"]
mod common;

#[path = "../../reference/tests/cases/what_is_read.rs"]
mod what_is_read;

use std::collections::BTreeMap;

use beside::{calls, rounds};
use reference::damage::{kinds, tamper};
use reference::edition::Edition;
use reference::layout::{FIRST_PAGE, HIGHEST_KEY, PAGE_BYTES};
use reference::rng::Rng;
use reference::samples::sound_store;
use reference::store;
use reference::wild::wild_store;

/// How many stores were read, and how often each number was given.
#[derive(Debug, Default)]
struct Read {
    stores: u64,
    lookups: BTreeMap<u32, u64>,
    ranges: BTreeMap<u32, u64>,
}

impl Read {
    fn lookup(&mut self, bytes: &[u8], key: u32, version: u32) {
        let answer = host::lookup(bytes, key, version);
        let expected = reference::calls::lookup(bytes, key, version);
        assert_eq!(answer, expected, "{key} at {version}");
        *self.lookups.entry(answer.0).or_default() += 1;
    }

    fn range(&mut self, bytes: &[u8], low: u32, high: u32, version: u32, room: usize) {
        let (mut list, mut other) = (vec![7; room], vec![7; room]);
        let (number, count) = host::range(bytes, low, high, version, &mut list);
        let expected = reference::calls::range(bytes, low, high, version, &mut other);
        let asked = (low, high, version, room);
        assert_eq!((number, count as u64), expected, "{asked:?}");
        assert!(list == other, "{asked:?}");
        *self.ranges.entry(number).or_default() += 1;
    }

    /// Some lookups and ranges, for keys that stand somewhere in the bytes.
    fn some(&mut self, bytes: &[u8], rng: &mut Rng) {
        self.stores += 1;
        let keys = keys_in(bytes, rng);
        let last = match bytes.len() >= PAGE_BYTES {
            true => store::header(bytes).last(),
            false => 0,
        };
        for _ in 0..3 {
            let version = rng.below(last.min(3000) + 2).max(rng.below(2) * last);
            let (low, high) = (
                *rng.pick(&keys).unwrap_or(&0),
                *rng.pick(&keys).unwrap_or(&0),
            );
            self.lookup(bytes, low, version);
            let high = if rng.once_in(8) { high } else { low.max(high) };
            let room = if rng.once_in(3) { rng.below(20) } else { 400 };
            self.range(bytes, low, high, version, room as usize);
        }
    }

    fn tell(&self) {
        println!("{self:?}");
        for number in [0, 4, 6] {
            assert!(self.lookups[&number] > 100, "{number}: {self:?}");
            assert!(self.ranges[&number] > 100, "{number}: {self:?}");
        }
        assert!(self.ranges[&14] > 100, "{self:?}");
    }
}

/// Keys that stand somewhere in the bytes, and their neighbours.
fn keys_in(bytes: &[u8], rng: &mut Rng) -> Vec<u32> {
    let mut keys = vec![0, HIGHEST_KEY, HIGHEST_KEY + 1, rng.below(HIGHEST_KEY)];
    let pages = (bytes.len() / Edition::of(bytes).page_bytes) as u32;
    for _ in 0..6 {
        if pages <= FIRST_PAGE {
            break;
        }
        let page = store::page(bytes, rng.between(FIRST_PAGE, pages - 1));
        let some = rng.pick(&page.entries).map(|entry| entry.key);
        keys.extend(some.map(|key| key.wrapping_add(rng.below(3)).wrapping_sub(1)));
        keys.extend(page.entries.last().map(|entry| entry.key));
    }
    keys
}

/// Each kind of damage, bits and fields of every sort, two thirds of a store
/// at random.
#[test]
fn damaged_stores_by_the_hundred_thousand() {
    let mut read = Read::default();
    let kinds = kinds();
    for seed in 0..rounds(1000) {
        let mut rng = Rng::new(seed);
        let sound = sound_store(seed);
        for kind in &kinds {
            let mut bytes = sound.clone();
            if kind.make(&mut bytes, &mut rng) {
                read.some(&bytes, &mut rng);
            }
        }
        for _ in 0..70 {
            let mut bytes = sound.clone();
            tamper::change_some(&mut bytes, 4, 3, &mut rng);
            read.some(&bytes, &mut rng);
        }
    }
    read.tell();
    assert!(read.stores > 100_000, "{read:?}");
}

/// Stores that keep rules 1 and 2 alone, and some that keep hardly those.
#[test]
fn wild_stores() {
    let mut read = Read::default();
    for seed in 0..rounds(30_000) {
        let mut rng = Rng::new(seed);
        let mut bytes = wild_store(&mut rng);
        read.some(&bytes, &mut rng);
        if rng.once_in(3) {
            tamper::set_some_field(&mut bytes, &mut rng);
            read.some(&bytes, &mut rng);
        }
    }
    read.tell();
}

/// Each bit of a store of nine pages: every key and every version.
#[test]
fn each_bit_flipped() {
    let mut read = Read::default();
    let mut sound = vec![0xEE; 9 * 256];
    assert_eq!(calls::fresh(&mut sound), 0);
    assert_eq!(calls::open(&mut sound), 0);
    for key in 1..=21 {
        assert_eq!(calls::insert(&mut sound, key, key), 0);
    }
    assert_eq!(calls::commit(&mut sound), 0);
    assert_eq!(calls::open(&mut sound), 0);
    assert_eq!(calls::delete(&mut sound, 3), 0);
    for bit in 0..sound.len() * 8 {
        let mut bytes = sound.clone();
        bytes[bit / 8] ^= 0x80 >> (bit % 8);
        read.stores += 1;
        for version in [0, 1, 2, 3] {
            let key = bit as u32 % 23;
            read.lookup(&bytes, key, version);
            read.range(&bytes, key, key + 9, version, 20);
        }
        read.lookup(&bytes, HIGHEST_KEY + 1, 2);
        read.range(&bytes, 0, HIGHEST_KEY, 2, 50);
        read.range(&bytes, 0, HIGHEST_KEY, 1, 0);
    }
    read.tell();
}

/// The store with any bytes in all its pages but these.
fn damaged_off(way: &[u32], sound: &[u8], rng: &mut Rng) -> Vec<u8> {
    let mut bytes = sound.to_vec();
    for page in store::page_numbers(sound) {
        if !way.contains(&page) {
            let any = store::page_bytes_mut(&mut bytes, page);
            any.fill_with(|| rng.word() as u8);
        }
    }
    bytes
}

/// A key's lookup and range are what they were on the sound store, whatever stands in
/// the pages that they do not walk; a bit that is not defined, set in one that they do,
/// makes them 4.
fn walks_alone(sound: &[u8], key: u32, version: u32, rng: &mut Rng) {
    let mut way = [0; 7];
    let (number, count) = host::visits(sound, key, version, &mut way);
    assert_eq!(number, 0);
    let mut bytes = damaged_off(&way[..count], sound, rng);
    let answer = host::lookup(&bytes, key, version);
    assert_eq!(answer, host::lookup(sound, key, version));
    assert_eq!(answer, reference::calls::lookup(&bytes, key, version));
    // A range of one key goes the same way, but for a router at it.
    let one = |bytes: &[u8]| {
        let mut list = [7; 3];
        (host::range(bytes, key, key, version, &mut list), list)
    };
    assert_eq!(one(&bytes), one(sound));
    let page = way[rng.below(count as u32) as usize] as usize;
    let bit = rng.between(49, 127) as usize;
    bytes[page * PAGE_BYTES + bit / 8] ^= 0x80 >> (bit % 8);
    assert_eq!(host::lookup(&bytes, key, version), (4, false, 0));
    assert_eq!(one(&bytes), ((4, 0), [7; 3]));
}

#[test]
fn damage_off_the_walk() {
    let mut compared = 0;
    for seed in 0..rounds(300) {
        let mut rng = Rng::new(seed);
        let sound = sound_store(seed);
        let last = store::header(&sound).last();
        let mut keys = keys_in(&sound, &mut rng);
        keys.retain(|key| *key <= HIGHEST_KEY);
        for _ in 0..6 {
            let (key, version) = (*rng.pick(&keys).unwrap_or(&0), rng.between(0, last));
            walks_alone(&sound, key, version, &mut rng);
            compared += 1;
        }
    }
    println!("{compared} ways");
    assert!(compared >= 1800);
}

/// Any bytes at all, of any length.
#[test]
fn any_bytes() {
    let mut read = Read::default();
    let mut rng = Rng::new(4);
    for _ in 0..rounds(2000) {
        let length = match rng.below(3) {
            0 => rng.below(5000) as usize,
            _ => PAGE_BYTES * rng.below(12) as usize,
        };
        let mut bytes: Vec<u8> = (0..length).map(|_| rng.word() as u8).collect();
        if rng.once_in(2) && length >= 5 {
            bytes[..4].copy_from_slice(b"RCST");
            bytes[4] = rng.below(3) as u8;
        }
        for (key, version) in [(rng.below(99), rng.below(3)), (u32::MAX, u32::MAX)] {
            read.lookup(&bytes, key, version);
            read.range(&bytes, key, 99, version, 9);
        }
    }
    println!("{read:?}");
    for number in [1, 2, 3, 4] {
        assert!(read.lookups[&number] > 10, "{number}: {read:?}");
    }
}

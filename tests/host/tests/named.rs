//! Named settings and the viewer (2026-14), beside a model of them in plain
//! Rust, whose floats are Rust's own.

#[path = "common/mod.rs"]
mod beside;

use std::collections::BTreeMap;

use beside::rounds;
use beside::stores::{some_keys, some_versions, stores};
use host::naming::{self, Viewer};
use reference::calls;
use reference::named::{self, Kind};
use reference::rng::Rng;

/// Numbers whose order as floats is easily got wrong: zeros, the smallest and
/// the largest numbers of each sign, infinities, and NaNs.
fn edges() -> Vec<u32> {
    let positive = [
        0,
        1,
        2,
        0x007F_FFFF,
        0x0080_0000,
        0x0080_0001,
        0x3F7F_FFFF,
        0x3F80_0000,
        0x3F80_0001,
        0x3FC0_0000,
        0x4000_0000,
        0x7F7F_FFFE,
        0x7F7F_FFFF,
        0x7F80_0000,
        0x7F80_0001,
        0x7FC0_0000,
        0x7FFF_FFFF,
    ];
    let negative = positive.iter().map(|bits| bits | 0x8000_0000);
    positive.iter().copied().chain(negative).collect()
}

/// Whether a kind admits a value, by the library: a store of no bytes gives 1
/// where the layer lets the value through.
fn lets(table: &[u32], key: u32, value: u32) -> bool {
    match naming::insert(&mut [], table, key, value) {
        1 => true,
        16 => false,
        number => panic!("{number} for {value:#x} by {table:x?}"),
    }
}

fn agree(table: &[u32], value: u32) -> bool {
    let kind = named::kind_of(table, table[0]).expect("a row of a kind");
    let admitted = named::admits(kind, value);
    assert_eq!(
        lets(table, table[0], value),
        admitted,
        "{kind:?} {value:#x}"
    );
    admitted
}

#[test]
fn every_edge_as_limit_and_as_value() {
    let mut admitted = 0;
    for kind in 0..3 {
        for low in edges() {
            for high in edges() {
                for value in edges() {
                    let near = [value, value.wrapping_add(1), value.wrapping_sub(1)];
                    let table = [7, kind, low, high];
                    admitted += near.iter().filter(|&&value| agree(&table, value)).count();
                }
            }
        }
    }
    println!("admitted: {admitted}");
    assert!(admitted > 10_000);
}

#[test]
fn both_ends_and_the_next_float_outside() {
    let mut rng = Rng::new(14);
    for _ in 0..rounds(20_000) {
        let (one, other) = (f32::from_bits(rng.word()), f32::from_bits(rng.word()));
        if one.is_nan() || other.is_nan() {
            continue;
        }
        let (low, high) = (one.min(other), one.max(other));
        let table = [7, 2, low.to_bits(), high.to_bits()];
        assert!(lets(&table, 7, low.to_bits()));
        assert!(lets(&table, 7, high.to_bits()));
        assert!(low == f32::NEG_INFINITY || !lets(&table, 7, low.next_down().to_bits()));
        assert!(high == f32::INFINITY || !lets(&table, 7, high.next_up().to_bits()));
        agree(&table, rng.word());
    }
}

/// Every 32 bits as the value of one level; without `RCST_LONG` one in 65,521.
#[test]
fn every_value_of_a_level() {
    let table = [7, 2, (-0.0f32).to_bits(), 1.5f32.to_bits()];
    let step = if std::env::var("RCST_LONG").is_ok() {
        1
    } else {
        65_521
    };
    let admitted = (0..=u32::MAX)
        .step_by(step)
        .filter(|&value| agree(&table, value))
        .count();
    println!("admitted: {admitted}");
    if step == 1 {
        // from 0.0 to 1.5, and -0.0
        assert_eq!(admitted, 0x3FC0_0000 + 2);
    }
}

/// A table of some rows, most of them right; keys among the given ones.
fn some_table(keys: &[u32], rng: &mut Rng) -> Vec<u32> {
    let limits = [edges(), vec![10, 20, 1000, u32::MAX]].concat();
    let mut table = Vec::new();
    for &key in keys {
        if rng.once_in(12) {
            continue;
        }
        let kind = if rng.once_in(20) {
            rng.below(9)
        } else {
            rng.below(3)
        };
        let low = if rng.once_in(3) {
            *rng.pick(&limits).unwrap()
        } else {
            0
        };
        let high = if rng.once_in(3) {
            *rng.pick(&limits).unwrap()
        } else {
            0x7F80_0000
        };
        table.extend([key, kind, low, high]);
        if rng.once_in(20) {
            table.extend([key, rng.below(3), 0, 5]);
        }
    }
    if rng.once_in(9) {
        table.extend([1, 2, 3].iter().take(rng.below(4) as usize));
    }
    table
}

fn count(tally: &mut BTreeMap<u32, u64>, number: u32) {
    *tally.entry(number).or_insert(0) += 1;
}

/// All readings of one key and one range, by both.
fn readings(
    store: &[u8],
    table: &[u32],
    key: u32,
    version: u32,
    rng: &mut Rng,
    tally: &mut BTreeMap<u32, u64>,
) {
    let viewer = Viewer::unasked(store, version, table);
    let of_kind = |kind| named::lookup_kind(store, table, kind, key, version);
    assert_eq!(
        naming::opens(store, version),
        named::open_viewer(store, version)
    );
    assert_eq!(viewer.value(key), named::lookup(store, table, key, version));
    assert_eq!(viewer.whole(key), of_kind(0));
    assert_eq!(viewer.switch(key), of_kind(1));
    let (number, found, bits, level) = viewer.level(key);
    assert_eq!((number, found, bits), of_kind(2));
    let float = f32::from_bits(bits);
    assert!(level.to_bits() == bits || level.is_nan() && float.is_nan());
    count(tally, number);
    count(tally, ranged(store, table, version, rng));
}

/// Some range by both: the number, and every number of the list.
fn ranged(store: &[u8], table: &[u32], version: u32, rng: &mut Rng) -> u32 {
    let viewer = Viewer::unasked(store, version, table);
    let low = rng.below(60);
    let (high, room) = (low + rng.below(60), rng.below(90) as usize);
    let (mut ours, mut theirs) = (vec![0xEEEE_EEEE; room], vec![0xEEEE_EEEE; room]);
    let (number, found) = viewer.range(low, high, &mut ours);
    assert_eq!(
        (number, found as u64),
        named::range(store, table, low, high, version, &mut theirs)
    );
    assert_eq!(ours, theirs);
    if number != 0 {
        assert!(ours.iter().all(|&word| word == 0xEEEE_EEEE));
    }
    number
}

/// A small number or any, as often.
fn small_or_any(below: u32, rng: &mut Rng) -> u32 {
    if rng.once_in(2) {
        rng.below(below)
    } else {
        rng.word()
    }
}

/// One call of an update by name, by each program on a store of its own: the two
/// numbers.
fn one_call(
    ours: &mut [u8],
    theirs: &mut [u8],
    table: &[u32],
    key: u32,
    rng: &mut Rng,
) -> (u32, u32) {
    let value = small_or_any(3, rng);
    match rng.below(12) {
        0 => (host::open(ours), calls::open(theirs)),
        1 if rng.once_in(3) => (host::abandon(ours), calls::abandon(theirs)),
        1 => (host::commit(ours), calls::commit(theirs)),
        2 | 3 => (
            naming::delete(ours, table, key),
            named::delete(theirs, table, key),
        ),
        _ => (
            naming::insert(ours, table, key, value),
            named::insert(theirs, table, key, value),
        ),
    }
}

#[test]
fn histories_by_two_tables() {
    let mut tally = BTreeMap::new();
    for seed in 0..rounds(60) {
        let mut rng = Rng::new(seed);
        let keys: Vec<u32> = (0..60).collect();
        // an older program, which knows some of the keys, and a newer one
        let newer = some_table(&keys, &mut rng);
        let older = some_table(&keys[..30], &mut rng);
        let mut ours = vec![0; 256 * rng.between(6, 40) as usize];
        calls::fresh(&mut ours);
        let mut theirs = ours.clone();
        for _ in 0..200 {
            let table = if rng.once_in(4) { &older } else { &newer };
            let key = rng.below(70);
            let (one, other) = one_call(&mut ours, &mut theirs, table, key, &mut rng);
            assert_eq!(one, other, "seed {seed}");
            assert_eq!(ours, theirs, "seed {seed}");
            count(&mut tally, one);
            readings(&ours, table, key, rng.below(12), &mut rng, &mut tally);
        }
    }
    println!("numbers given, times: {tally:?}");
    for number in [0, 6, 7, 8, 10, 11, 14, 15, 16, 17] {
        assert!(tally.contains_key(&number), "{number}: {tally:?}");
    }
}

/// Six updates by name on a fresh store of 64 pages, and the last version.
fn some_releases(table: &[u32], rng: &mut Rng) -> (Vec<u8>, u32) {
    let mut store = vec![0; 256 * 64];
    host::fresh(&mut store);
    let mut last = 0;
    for _ in 0..6 {
        host::open(&mut store);
        for _ in 0..40 {
            let key = rng.below(64);
            if rng.once_in(4) {
                naming::delete(&mut store, table, key);
            } else {
                naming::insert(&mut store, table, key, small_or_any(30, rng));
            }
        }
        if host::commit(&mut store) == 0 {
            last += 1;
        } else {
            host::abandon(&mut store);
        }
    }
    (store, last)
}

/// How many settings a version has: each of a known key, with a value it admits.
fn admitted(store: &[u8], version: u32, table: &[u32]) -> usize {
    let mut list = vec![0; 400];
    let (number, count) = host::range(store, 0, 16_777_215, version, &mut list);
    assert_eq!(number, 0);
    for setting in list.chunks(2).take(count) {
        let kind = named::kind_of(table, setting[0]).expect("a known key");
        assert!(named::admits(kind, setting[1]), "{kind:?} {}", setting[1]);
        if let Kind::Level(..) = kind {
            assert!(!f32::from_bits(setting[1]).is_nan());
        }
    }
    count
}

/// After any history by name, every setting of every version has a known key
/// and an admitted value.
#[test]
fn only_admitted_settings() {
    let mut settings = 0;
    for seed in 0..rounds(40) {
        let mut rng = Rng::new(1000 + seed);
        let keys: Vec<u32> = (0..60).collect();
        let table = some_table(&keys, &mut rng);
        let (store, last) = some_releases(&table, &mut rng);
        for version in 0..=last {
            settings += admitted(&store, version, &table);
        }
    }
    println!("settings: {settings}");
    assert!(settings > 1000);
}

#[test]
fn readings_on_bytes_of_every_kind() {
    let mut tally = BTreeMap::new();
    for seed in 0..rounds(30) {
        let mut rng = Rng::new(seed);
        for bytes in stores(seed) {
            let keys = some_keys(&bytes, &mut rng);
            let table = some_table(&keys, &mut rng);
            for version in some_versions(&bytes, &mut rng) {
                let key = *rng.pick(&keys).unwrap_or(&0);
                readings(&bytes, &table, key, version, &mut rng, &mut tally);
                readings(&bytes, &table, rng.word(), version, &mut rng, &mut tally);
            }
        }
    }
    println!("numbers given, times: {tally:?}");
    for number in [0, 1, 2, 4, 6, 16, 17] {
        assert!(tally.contains_key(&number), "{number}: {tally:?}");
    }
}

#[test]
fn unknown_keys_on_every_call() {
    let mut store = vec![0; 256 * 6];
    host::fresh(&mut store);
    host::open(&mut store);
    assert_eq!(host::insert(&mut store, 9, 5), 0);
    let before = store.clone();
    for table in [&[][..], &[8, 0, 0, 9], &[9, 3, 0, 9], &[9, 0, 0]] {
        assert_eq!(naming::insert(&mut store, table, 9, 5), 17);
        assert_eq!(naming::delete(&mut store, table, 9), 17);
        let viewer = Viewer::open(&store, 1, table).map_err(|_| ()).unwrap();
        assert_eq!(viewer.value(9), (17, false, 0));
        assert_eq!(viewer.whole(9), (17, false, 0));
        assert_eq!(viewer.switch(9), (17, false, 0));
        assert_eq!(viewer.level(9).0, 17);
        assert_eq!(viewer.range(0, 16_777_215, &mut []), (17, 0));
        assert_eq!(viewer.range(0, 8, &mut []), (0, 0));
    }
    assert_eq!(store, before);
    // 17 and 16 come before all numbers of the store
    assert_eq!(naming::insert(&mut [], &[], 9, 5), 17);
    assert_eq!(naming::insert(&mut [], &[9, 0, 6, 9], 9, 5), 16);
    assert_eq!(naming::delete(&mut [], &[], 9), 17);
    assert_eq!(Viewer::unasked(&[], 0, &[]).value(9).0, 17);
    assert_eq!(Viewer::open(&[], 0, &[]).err(), Some(1));
    // a value from before, outside its kind's limits, is read as it is
    let strict = [9, 0, 6, 9];
    assert_eq!(Viewer::unasked(&store, 1, &strict).whole(9), (0, true, 5));
}

#[test]
fn tables_judged() {
    let mut tally = BTreeMap::new();
    for seed in 0..rounds(4_000) {
        let mut rng = Rng::new(seed);
        let keys: Vec<u32> = (0..rng.below(6)).map(|key| key * 3).collect();
        let mut table = some_table(&keys, &mut rng);
        if rng.once_in(4) && !table.is_empty() {
            let place = rng.below(table.len() as u32) as usize;
            table[place] = rng.word();
        }
        let wrong = naming::kinds_check(&table);
        assert_eq!(wrong, named::wrong_row(&table), "{table:x?}");
        *tally.entry(wrong).or_insert(0u64) += 1;
    }
    println!("first wrong row, times: {tally:?}");
    assert!(tally.len() > 4);
}

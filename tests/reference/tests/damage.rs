//! Unsound stores: each rule the lowest broken one, and random damage beside
//! a literal second judge.

mod common;

use std::collections::BTreeMap;
use std::sync::OnceLock;

use common::literal::verdict;
use common::reader::read;
use common::*;
use reference::calls;
use reference::damage::tamper::{flip_bit, set_some_field};
use reference::damage::{kinds, Damage};
use reference::edition::{Edition, EDITIONS, FIRST, SECOND};
use reference::engine::{apply, Answer, Call};
use reference::rng::Rng;
use reference::samples::sound_store_of;
use reference::store;

const STORES: u64 = 400;

fn sound_stores(edition: &'static Edition) -> &'static [Vec<u8>] {
    static FIRSTS: OnceLock<Vec<Vec<u8>>> = OnceLock::new();
    static SECONDS: OnceLock<Vec<Vec<u8>>> = OnceLock::new();
    let stores = if edition == &FIRST { &FIRSTS } else { &SECONDS };
    stores.get_or_init(|| {
        (0..STORES)
            .map(|seed| sound_store_of(edition, seed))
            .collect()
    })
}

/// A store of edition 2 once in three times.
fn some_store(rng: &mut Rng) -> Vec<u8> {
    let edition = if rng.once_in(3) { &SECOND } else { &FIRST };
    rng.pick(sound_stores(edition)).unwrap().clone()
}

/// The literal judge says the same. It goes through every single version, so
/// it is not asked where there are very many.
fn judges_agree(bytes: &[u8], judged: (u32, u32)) {
    if store::header(bytes).last() < 5000 {
        assert_eq!(verdict(bytes), judged);
    }
}

/// These calls give the number of judging, whatever their arguments, and write
/// nothing.
fn refuse_all(lent: &mut [u8], number: u32, (one, two): (u32, u32)) {
    for call in [
        Call::Open,
        Call::Insert(two, one),
        Call::Delete(two),
        Call::Commit,
        Call::Abandon,
        Call::Return(two),
        Call::Prune(two),
        Call::Visits(two, 0, 8),
        Call::Difference(one, two, 8),
        Call::Life(two, 8),
    ] {
        let mut list = [3; 8];
        let list = &mut list[..call.list_length()];
        let first = lent.get(4) == Some(&1) && number != 2;
        let number = match call {
            // In 3's place edition 1 too.
            Call::Prune(_) if first => 3,
            _ => number,
        };
        assert_eq!(apply(call, lent, list), Answer::of(number));
        assert!(list.iter().all(|number| *number == 3));
    }
}

/// Every call on an unsound store but lookup and range gives the number of
/// judging, whatever the arguments; these two give what a second reader says.
/// None changes anything.
fn all_calls_refuse(bytes: &[u8], number: u32, rule: u32, rng: &mut Rng) {
    let mut lent = bytes.to_vec();
    let (one, two) = (rng.word(), rng.word() >> rng.below(32));
    refuse_all(&mut lent, number, (one, two));
    for (low, high, version) in [(one, two, 0), (0, two, 0), (two, two, one)] {
        if let Some((expected, _)) = read(bytes, (low, high), version, false) {
            let (given, _) = calls::range(&lent, low, high, version, &mut [3; 8]);
            assert!(given == expected || (given, expected) == (14, 0));
        }
        if let Some((expected, _)) = read(bytes, (low, low), version, true) {
            assert_eq!(calls::lookup(&lent, low, version).0, expected);
        }
    }
    let check = apply(Call::Check, &mut lent, &mut []);
    assert_eq!(check, Answer::judged((number, rule)));
    assert_eq!(lent, bytes);
}

fn damage_once(edition: &'static Edition, damage: &Damage, seed: u64) -> bool {
    let stores = sound_stores(edition);
    let mut bytes = stores[seed as usize % stores.len()].clone();
    let mut rng = Rng::new(seed ^ 0xDA);
    if !damage.make(&mut bytes, &mut rng) {
        return false;
    }
    let (name, rule) = (damage.name, damage.rule);
    assert_eq!(calls::check(&bytes), (4, rule), "{name}, seed {seed}");
    if seed.is_multiple_of(8) {
        judges_agree(&bytes, (4, rule));
        all_calls_refuse(&bytes, 4, rule, &mut rng);
    }
    true
}

fn each_rule_is_the_lowest_broken_one(edition: &'static Edition, rounds: u64) {
    let mut of_rule = BTreeMap::<u32, u64>::new();
    for damage in kinds() {
        let seeds = 0..rounds;
        let damaged = seeds.filter(|seed| damage_once(edition, &damage, *seed));
        let times = damaged.count() as u64;
        println!("rule {} {:>5} times: {}", damage.rule, times, damage.name);
        // The live count and the oldest version are edition 2's. Few of its stores
        // here have what ended before the oldest: `pruned` has more of them.
        let ended = damage.name.contains("oldest version") || damage.name.contains("ended");
        let second_alone = damage.rule == 8 || damage.name.contains("the oldest");
        let fewest = match edition == &FIRST && second_alone || ended {
            true => 0,
            false => 20,
        };
        assert!(
            times >= fewest,
            "{} found a place {times} times",
            damage.name
        );
        *of_rule.entry(damage.rule).or_default() += times;
    }
    println!("{of_rule:?}");
    for rule in 1..=6 {
        assert!(of_rule[&rule] >= 500, "{of_rule:?}");
    }
    // Rule 8 is edition 2's.
    let fewest = if edition == &SECOND { 500 } else { 0 };
    assert!(of_rule[&8] >= fewest, "{of_rule:?}");
}

#[test]
fn each_rule_is_the_lowest_broken_one_hundreds_of_times() {
    each_rule_is_the_lowest_broken_one(&FIRST, rounds(800));
}

#[test]
fn each_rule_of_edition_2_too() {
    each_rule_is_the_lowest_broken_one(&SECOND, rounds(400));
}

#[test]
fn sound_stores_are_sound_to_both_judges() {
    for edition in EDITIONS {
        for bytes in sound_stores(edition) {
            assert_eq!(Edition::of(bytes), edition);
            assert_sound(bytes);
            judges_agree(bytes, (0, 0));
        }
    }
}

/// What the judges say of stores that were changed in up to `most` places, and how
/// often.
fn judged_after(
    change: fn(&mut [u8], &mut Rng),
    most: u32,
    stores: u64,
) -> BTreeMap<(u32, u32), u64> {
    let mut met = BTreeMap::new();
    for seed in 0..stores {
        let mut rng = Rng::new(seed);
        let mut bytes = some_store(&mut rng);
        for _ in 0..rng.between(1, most) {
            change(&mut bytes, &mut rng);
        }
        let judged = calls::check(&bytes);
        judges_agree(&bytes, judged);
        *met.entry(judged).or_default() += 1;
    }
    met
}

#[test]
fn flipped_bits() {
    println!("{:?}", judged_after(flip_bit, 2, rounds(3000)));
}

#[test]
fn fields_set_to_likely_numbers() {
    let met = judged_after(set_some_field, 3, rounds(20_000));
    println!("{met:?}");
    for rule in [1, 2, 3, 4, 5, 6, 8] {
        assert!(met[&(4, rule)] > 50, "{met:?}");
    }
}

#[test]
fn lengths() {
    for (fresh, call, page) in [
        (fresh(6), Call::Fresh, 256),
        (fresh_second(6), Call::FreshSecond, 512),
    ] {
        for length in [
            0,
            1,
            3,
            4,
            5,
            page - 1,
            page,
            5 * page,
            6 * page - 1,
            6 * page + 1,
            6 * page + 256 % page,
            4097 * page,
        ] {
            let mut bytes = fresh.clone();
            bytes.resize(length, 0);
            let fits = length == 6 * page;
            if !fits {
                all_calls_refuse(&bytes, 1, 0, &mut Rng::new(length as u64));
                assert_eq!(apply(call, &mut bytes, &mut []).number, 1);
            }
        }
    }
    for pages in [6, 7, 4095, 4096] {
        assert_sound(&fresh(pages));
        assert_sound(&fresh_second(pages));
    }
}

#[test]
fn four_bytes_and_edition() {
    let mut rng = Rng::new(1);
    for bit in 0..32 {
        let mut bytes = fresh(6);
        bytes[bit / 8] ^= 1 << (bit % 8);
        all_calls_refuse(&bytes, 2, 0, &mut rng);
        for edition in [0, 2, 3] {
            bytes[4] = edition;
            // The four bytes before the edition, and both before the length.
            for length in [6 * 256, 6 * 256 - 1, 5] {
                all_calls_refuse(&bytes[..length], 2, 0, &mut rng);
            }
        }
        all_calls_refuse(&bytes[..4], 1, 0, &mut rng);
    }
    for edition in (0..=255).filter(|edition| ![1, 2].contains(edition)) {
        let mut bytes = fresh(6);
        bytes[4] = edition;
        all_calls_refuse(&bytes, 3, 0, &mut rng);
        // The edition is judged before anything else in the store.
        bytes[100] = 1;
        for length in [6 * 256, 6 * 256 - 1, 5 * 256, 5] {
            all_calls_refuse(&bytes[..length], 3, 0, &mut rng);
        }
        all_calls_refuse(&bytes[..4], 1, 0, &mut rng);
    }
}

/// The length is judged by the edition that the bytes name: 1,536 bytes are six
/// pages of edition 1 and three of edition 2; 3,072 are twelve and six.
#[test]
fn an_edition_byte_exchanged() {
    let mut rng = Rng::new(2);
    let mut bytes = fresh(6);
    bytes[4] = 2;
    all_calls_refuse(&bytes, 1, 0, &mut rng);
    let mut bytes = fresh(12);
    bytes[4] = 2;
    all_calls_refuse(&bytes, 4, 1, &mut rng);
    let mut bytes = fresh_second(6);
    bytes[4] = 1;
    all_calls_refuse(&bytes, 4, 1, &mut rng);
    let mut bytes = fresh_second(2049);
    assert_sound(&bytes);
    bytes[4] = 1;
    all_calls_refuse(&bytes, 1, 0, &mut rng);
}

#[test]
fn any_bytes_at_all() {
    let mut rng = Rng::new(9);
    for round in 0..rounds(300) {
        let pages = 6 + rng.below(20) as usize;
        let mut bytes: Vec<u8> = (0..pages * 256).map(|_| rng.word() as u8).collect();
        if round % 3 > 0 {
            bytes[..5].copy_from_slice(&[0x52, 0x43, 0x53, 0x54, round as u8 % 3]);
        }
        let (number, rule) = verdict(&bytes);
        all_calls_refuse(&bytes, number, rule, &mut rng);
        assert_eq!(calls::fresh(&mut bytes), 0);
        assert_eq!(bytes, fresh(pages));
    }
}

//! Named settings and the viewer (2026-14), by hand: a case for each sentence
//! of the request and for each reading of it. `tests/host` holds the proved
//! library to this program, call by call.

mod common;

use common::*;
use reference::calls;
use reference::named::{self, admits, kind_of, Kind};

const DOSE: u32 = 40;
const SHUTTER: u32 = 41;
const FILTER: u32 = 42;

/// A dose from 10 to 20, a shutter, a filter from 0.0 to 1.5.
fn table() -> Vec<u32> {
    let level = [0.0f32.to_bits(), 1.5f32.to_bits()];
    let rows = [[DOSE, 0, 10, 20], [SHUTTER, 1, 0, 0]];
    let filter = [FILTER, 2, level[0], level[1]];
    rows.into_iter().chain([filter]).flatten().collect()
}

fn level(low: f32, high: f32, value: f32) -> bool {
    admits(Kind::Level(low, high), value.to_bits())
}

#[test]
fn a_whole_number_inside_its_limits_both_ends_included() {
    for (value, inside) in [(9, false), (10, true), (20, true), (21, false)] {
        assert_eq!(admits(Kind::Whole(10, 20), value), inside, "{value}");
    }
    assert!(admits(Kind::Whole(0, u32::MAX), u32::MAX));
    assert!(!admits(Kind::Whole(20, 10), 15));
}

#[test]
fn a_switch_is_0_or_1() {
    for value in [0, 1] {
        assert!(admits(Kind::Switch, value));
    }
    for value in [2, u32::MAX, 1.0f32.to_bits()] {
        assert!(!admits(Kind::Switch, value));
    }
}

/// Reading 14.2.
#[test]
fn a_level_by_its_floats() {
    assert!(level(0.0, 1.5, 0.0) && level(0.0, 1.5, 1.5));
    assert!(!level(0.0, 1.5, 1.5f32.next_up()));
    assert!(!level(0.0, 1.5, 0.0f32.next_down()));
    assert!(level(0.0, 1.0, -0.0) && level(-0.0, -0.0, 0.0));
    assert!(!level(0.0, 0.0, f32::from_bits(1)));
    assert!(level(-1.0, f32::INFINITY, f32::INFINITY));
    assert!(!level(-1.0, 1.0, f32::NEG_INFINITY));
    assert!(!level(1.0, 0.5, 0.7));
    for nan in [0x7FC0_0000, 0x7F80_0001, 0xFFC0_0000, u32::MAX] {
        let nan = f32::from_bits(nan);
        assert!(!level(f32::NEG_INFINITY, f32::INFINITY, nan));
        assert!(!level(nan, 1.0, 0.5) && !level(0.0, nan, 0.5));
    }
}

#[test]
fn the_first_row_of_a_key_counts() {
    let twice = [7, 1, 0, 0, 7, 0, 0, 9];
    assert_eq!(kind_of(&twice, 7), Some(Kind::Switch));
    assert_eq!(kind_of(&[7, 3, 0, 9, 7, 0, 0, 9], 7), None);
    assert_eq!(kind_of(&[7, 0, 0], 7), None);
    assert_eq!(kind_of(&[], 7), None);
}

/// Reading 14.1: 17, then 16, before all numbers of the store.
#[test]
fn seventeen_and_sixteen_before_the_store_sees_them() {
    let table = table();
    let mut none = [];
    assert_eq!(named::insert(&mut none, &table, 39, 15), 17);
    assert_eq!(named::insert(&mut none, &table, DOSE, 9), 16);
    assert_eq!(named::insert(&mut none, &table, DOSE, 15), 1);
    assert_eq!(named::delete(&mut none, &table, 39), 17);
    assert_eq!(named::delete(&mut none, &table, DOSE), 1);
    assert_eq!(named::lookup(&none, &table, 39, 0), (17, false, 0));
    assert_eq!(named::lookup_kind(&none, &table, 1, DOSE, 0).0, 16);
    assert_eq!(named::lookup_kind(&none, &table, 0, DOSE, 0).0, 1);
}

/// Reading 14.3: a value from before is read as it is.
#[test]
fn only_inserting_is_refused() {
    let table = table();
    let mut bytes = fresh(6);
    open(&mut bytes);
    assert_eq!(calls::insert(&mut bytes, DOSE, 99), 0);
    assert_eq!(named::lookup(&bytes, &table, DOSE, 1), (0, true, 99));
    let mut list = [0; 2];
    assert_eq!(named::range(&bytes, &table, 0, 99, 1, &mut list), (0, 1));
    assert_eq!(list, [DOSE, 99]);
    assert_eq!(named::delete(&mut bytes, &table, DOSE), 0);
    assert_eq!(named::insert(&mut bytes, &table, DOSE, 99), 16);
}

/// Reading 14.4: an older program meets the filter, which it does not know.
#[test]
fn a_range_that_meets_an_unknown_key_is_refused_as_a_whole() {
    let table = table();
    let older = &table[..8];
    let mut bytes = fresh(6);
    open(&mut bytes);
    assert_eq!(named::insert(&mut bytes, &table, DOSE, 10), 0);
    assert_eq!(named::insert(&mut bytes, &table, FILTER, 0), 0);
    let mut list = [7; 4];
    assert_eq!(named::range(&bytes, older, 0, 99, 1, &mut list), (17, 0));
    assert_eq!(named::range(&bytes, older, 0, 99, 1, &mut []), (17, 0));
    assert_eq!(named::range(&bytes, older, 99, 0, 1, &mut list), (5, 0));
    assert_eq!(named::range(&bytes, older, 0, 99, 2, &mut list), (6, 0));
    assert_eq!(named::range(&bytes, older, 0, 99, 0, &mut list), (0, 0));
    assert_eq!(list, [7; 4]);
    assert_eq!(named::range(&bytes, older, 0, 41, 1, &mut list), (0, 1));
    assert_eq!(named::range(&bytes, &table, 0, 99, 1, &mut []), (14, 2));
    assert_eq!(named::lookup(&bytes, older, FILTER, 1), (17, false, 0));
    assert_eq!(named::delete(&mut bytes, older, FILTER), 17);
}

/// Opening goes by the header and the slots; a range by the whole store.
#[test]
fn a_viewer_opens_on_a_store_and_one_version() {
    let mut bytes = fresh(6);
    open(&mut bytes);
    assert_eq!(named::open_viewer(&bytes, 1), 0);
    assert_eq!(named::open_viewer(&bytes, 2), 6);
    assert_eq!(named::open_viewer(&bytes[1..], 2), 2);
    assert_eq!(named::open_viewer(&bytes[..6 * 256 - 1], 2), 1);
    let sound = bytes.clone();
    bytes[5 * 256 + 200] ^= 1;
    assert_eq!(calls::check(&bytes).0, 4);
    assert_eq!(named::open_viewer(&bytes, 1), 0);
    assert_eq!(named::open_viewer(&bytes, 2), 6);
    assert_eq!(named::range(&bytes, &[], 9, 0, 1, &mut []), (4, 0));
    for place in [0, 200, 300] {
        bytes.clone_from(&sound);
        bytes[place] ^= 1;
        let number = calls::check(&bytes).0;
        assert!((2..=4).contains(&number));
        assert_eq!(named::open_viewer(&bytes, 2), number);
    }
}

#[test]
fn a_table_is_judged() {
    let right = table();
    assert_eq!(named::wrong_row(&right), 0);
    assert_eq!(named::wrong_row(&[]), 0);
    assert_eq!(named::wrong_row(&right[..11]), 3);
    assert_eq!(named::wrong_row(&[7, 0, 9, 9, 7, 1, 0, 0]), 2);
    assert_eq!(named::wrong_row(&[16_777_216, 1, 0, 0]), 1);
    assert_eq!(named::wrong_row(&[16_777_215, 1, 9, 0]), 0);
    assert_eq!(named::wrong_row(&[7, 3, 0, 0]), 1);
    assert_eq!(named::wrong_row(&[7, 0, 9, 8]), 1);
    assert_eq!(named::wrong_row(&[7, 2, 0x7FC0_0000, 0x7FC0_0000]), 1);
    assert_eq!(named::wrong_row(&[7, 2, 0, 0x8000_0000]), 0);
}

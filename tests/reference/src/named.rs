//! Named settings and the viewer (2026-14): a layer above the calls that knows
//! each key's kind by a table, four numbers a row: key, kind, lowest, highest.

use crate::calls;

/// "a whole number with its limits, a switch, or a level with its lowest and
/// highest float".
#[derive(Clone, Copy, Debug, PartialEq)]
pub enum Kind {
    Whole(u32, u32),
    Switch,
    Level(f32, f32),
}

impl Kind {
    /// The number of the kind in a row.
    pub fn number(self) -> u32 {
        match self {
            Kind::Whole(..) => 0,
            Kind::Switch => 1,
            Kind::Level(..) => 2,
        }
    }
}

fn row_kind(row: &[u32]) -> Option<Kind> {
    match row[1] {
        0 => Some(Kind::Whole(row[2], row[3])),
        1 => Some(Kind::Switch),
        2 => Some(Kind::Level(f32::from_bits(row[2]), f32::from_bits(row[3]))),
        _ => None,
    }
}

/// What the first row of a key says; a row with another kind says nothing.
pub fn kind_of(table: &[u32], key: u32) -> Option<Kind> {
    row_kind(table.chunks_exact(4).find(|row| row[0] == key)?)
}

/// "a value of the kind inside the limits, both ends included"; "a NaN is
/// refused".
pub fn admits(kind: Kind, value: u32) -> bool {
    match kind {
        Kind::Whole(low, high) => low <= value && value <= high,
        Kind::Switch => value == 0 || value == 1,
        Kind::Level(low, high) => {
            let level = f32::from_bits(value);
            !level.is_nan() && level >= low && level <= high
        }
    }
}

/// The first row, counted from 1, whose key is none or not above the one
/// before, whose kind is none, or whose lowest is not at or below its highest;
/// or the row that is not whole; or 0.
pub fn wrong_row(table: &[u32]) -> usize {
    let mut next = 0u64;
    for (place, row) in table.chunks(4).enumerate() {
        let right = row.len() == 4
            && u64::from(row[0]) >= next
            && row[0] <= 16_777_215
            && match row_kind(row) {
                Some(Kind::Whole(low, high)) => low <= high,
                Some(Kind::Switch) => true,
                Some(Kind::Level(low, high)) => low <= high,
                None => false,
            };
        if !right {
            return place + 1;
        }
        next = u64::from(row[0]) + 1;
    }
    0
}

pub fn insert(store: &mut [u8], table: &[u32], key: u32, value: u32) -> u32 {
    match kind_of(table, key) {
        None => 17,
        Some(kind) if !admits(kind, value) => 16,
        Some(_) => calls::insert(store, key, value),
    }
}

pub fn delete(store: &mut [u8], table: &[u32], key: u32) -> u32 {
    match kind_of(table, key) {
        None => 17,
        Some(_) => calls::delete(store, key),
    }
}

/// The number that opening a viewer gives: what a lookup gives before it looks
/// at its key, and 6.
pub fn open_viewer(store: &[u8], version: u32) -> u32 {
    let judged = calls::lookup(store, 16_777_216, version).0;
    let late = calls::lookup(store, 0, version).0 == 6;
    match (judged, late) {
        (5, true) => 6,
        (5, false) => 0,
        (number, _) => number,
    }
}

pub fn lookup(store: &[u8], table: &[u32], key: u32, version: u32) -> (u32, bool, u32) {
    match kind_of(table, key) {
        None => (17, false, 0),
        Some(_) => calls::lookup(store, key, version),
    }
}

/// A lookup of a key that is to be of the kind with this number.
pub fn lookup_kind(
    store: &[u8],
    table: &[u32],
    number: u32,
    key: u32,
    version: u32,
) -> (u32, bool, u32) {
    match kind_of(table, key) {
        Some(kind) if kind.number() != number => (16, false, 0),
        _ => lookup(store, table, key, version),
    }
}

/// "never skipped": a range that meets an unknown key is refused as a whole. It
/// asks for its keys on a store that is sound, and so judges all of it first.
pub fn range(
    store: &[u8],
    table: &[u32],
    low: u32,
    high: u32,
    version: u32,
    list: &mut [u32],
) -> (u32, u64) {
    let judged = calls::check(store).0;
    if judged != 0 {
        return (judged, 0);
    }
    let (number, count) = calls::range(store, low, high, version, &mut []);
    if number != 0 && number != 14 {
        return (number, 0);
    }
    let mut met = vec![0; 2 * count as usize];
    calls::range(store, low, high, version, &mut met);
    if met
        .chunks(2)
        .any(|setting| kind_of(table, setting[0]).is_none())
    {
        return (17, 0);
    }
    calls::range(store, low, high, version, list)
}

//! The calls on a store known to be sound.
//!
//! These judge arguments but not the store: the console never sees them. They
//! are here to be guarded by [`crate::calls`], and to be timed without the
//! cost of judging. On a store that is not sound they may panic or answer
//! anything.

use crate::difference::differences;
use crate::layout::{Header, FIRST_BENCH_KEY, HIGHEST_KEY, HIGHEST_VERSION};
use crate::update::{self, Change};
use crate::{abandon, life, number, prune, returning, store, walk};

pub fn open(bytes: &mut [u8]) -> u32 {
    let header = store::header(bytes);
    if header.open {
        return number::ALREADY_OPEN;
    }
    if header.current == HIGHEST_VERSION {
        return number::VERSIONS_USED_UP;
    }
    store::write_header(
        bytes,
        Header {
            open: true,
            ..header
        },
    );
    number::DONE
}

pub fn insert(bytes: &mut [u8], key: u32, value: u32) -> u32 {
    if key >= FIRST_BENCH_KEY {
        return number::ARGUMENT;
    }
    raw_insert(bytes, key, value)
}

/// Insert as it was before 2026-06: the bench keys go in too.
pub fn raw_insert(bytes: &mut [u8], key: u32, value: u32) -> u32 {
    let header = store::header(bytes);
    if key > HIGHEST_KEY {
        return number::ARGUMENT;
    }
    if !header.open {
        return number::NONE_OPEN;
    }
    if walk::lookup(bytes, key, header.last()).is_some() {
        return number::KEY_ALIVE;
    }
    update(bytes, key, Change::insert(key, value, header.last()))
}

pub fn delete(bytes: &mut [u8], key: u32) -> u32 {
    let header = store::header(bytes);
    if key > HIGHEST_KEY {
        return number::ARGUMENT;
    }
    if !header.open {
        return number::NONE_OPEN;
    }
    if walk::lookup(bytes, key, header.last()).is_none() {
        return number::KEY_NOT_ALIVE;
    }
    update(bytes, key, Change::delete(key))
}

fn update(bytes: &mut [u8], key: u32, change: Change) -> u32 {
    let changes = match update::plan(bytes, key, change) {
        Ok(draft) => draft.finish(),
        Err(refusal) => return refusal,
    };
    changes.write(bytes);
    number::DONE
}

pub fn commit(bytes: &mut [u8]) -> u32 {
    let header = store::header(bytes);
    let settings = |version| walk::settings(bytes, version);
    if header.open && settings(header.last()) == settings(header.current) {
        return number::NOTHING_CHANGED;
    }
    raw_commit(bytes)
}

/// Commit as it was before 2026-05: it makes empty versions too.
pub fn raw_commit(bytes: &mut [u8]) -> u32 {
    let header = store::header(bytes);
    if !header.open {
        return number::NONE_OPEN;
    }
    store::write_header(
        bytes,
        Header {
            current: header.last(),
            open: false,
            ..header
        },
    );
    number::DONE
}

pub fn abandon(bytes: &mut [u8]) -> u32 {
    if !store::header(bytes).open {
        return number::NONE_OPEN;
    }
    abandon::abandon(bytes);
    number::DONE
}

/// Makes the open version's settings those of a committed version, or abandons
/// the update with the number of the first step that is refused.
pub fn return_to(bytes: &mut [u8], version: u32) -> u32 {
    let header = store::header(bytes);
    if !(header.oldest..=header.current).contains(&version) {
        return number::VERSION;
    }
    if !header.open {
        return number::NONE_OPEN;
    }
    let number = returning::make_steps(bytes, version);
    if number != number::DONE {
        abandon::abandon(bytes);
    }
    number
}

/// Prunes to a committed version at least the oldest. Wants edition 2.
pub fn prune(bytes: &mut [u8], version: u32) -> u32 {
    let header = store::header(bytes);
    if !(header.oldest..=header.current).contains(&version) {
        return number::VERSION;
    }
    if header.open {
        return number::ALREADY_OPEN;
    }
    prune::prune(bytes, version);
    number::DONE
}

/// The number, whether the key was found, and its value.
pub fn lookup(bytes: &[u8], key: u32, version: u32) -> (u32, bool, u32) {
    if key > HIGHEST_KEY {
        return (number::ARGUMENT, false, 0);
    }
    if !store::header(bytes).can_read(version) {
        return (number::VERSION, false, 0);
    }
    match walk::lookup(bytes, key, version) {
        Some(value) => (number::DONE, true, value),
        None => (number::DONE, false, 0),
    }
}

/// The number and the count of settings found; their keys and values are
/// written to the front of `list` if it holds them all.
pub fn range(bytes: &[u8], low: u32, high: u32, version: u32, list: &mut [u32]) -> (u32, u32) {
    if low > HIGHEST_KEY || high > HIGHEST_KEY || low > high {
        return (number::ARGUMENT, 0);
    }
    if !store::header(bytes).can_read(version) {
        return (number::VERSION, 0);
    }
    let settings = walk::range(bytes, low, high, version);
    let count = settings.len() as u32;
    if list.len() < 2 * settings.len() {
        return (number::LIST_TOO_SHORT, count);
    }
    for (place, (key, value)) in list.chunks_exact_mut(2).zip(settings) {
        place.copy_from_slice(&[key, value]);
    }
    (number::DONE, count)
}

/// The number and the count of pages that a lookup visits, in order: "the page
/// numbers from the root down to the leaf", for any key. Refused as a range is.
pub fn visits(bytes: &[u8], key: u32, version: u32, list: &mut [u32]) -> (u32, u32) {
    if key > HIGHEST_KEY {
        return (number::ARGUMENT, 0);
    }
    if !store::header(bytes).can_read(version) {
        return (number::VERSION, 0);
    }
    let path = walk::path(bytes, key, version);
    let count = path.len() as u32;
    if list.len() < path.len() {
        return (number::LIST_TOO_SHORT, count);
    }
    for (place, step) in list.iter_mut().zip(path) {
        *place = step.page;
    }
    (number::DONE, count)
}

/// The number and the count of differences between two readable versions.
pub fn difference(bytes: &[u8], old: u32, new: u32, list: &mut [u32]) -> (u32, u32) {
    let header = store::header(bytes);
    if !header.can_read(old) || !header.can_read(new) {
        return (number::VERSION, 0);
    }
    let settings = |version| walk::settings(bytes, version);
    write_rows(&differences(&settings(old), &settings(new)), list)
}

/// The number and the count of stretches in the life of a key.
pub fn life(bytes: &[u8], key: u32, list: &mut [u32]) -> (u32, u32) {
    if key > HIGHEST_KEY {
        return (number::ARGUMENT, 0);
    }
    write_rows(&life::by_turning_points(bytes, key), list)
}

/// Writes the rows to the front of a list that holds them all; the number and
/// their count.
fn write_rows<const N: usize>(rows: &[[u32; N]], list: &mut [u32]) -> (u32, u32) {
    let count = rows.len() as u32;
    if list.len() < N * rows.len() {
        return (number::LIST_TOO_SHORT, count);
    }
    for (place, row) in list.chunks_exact_mut(N).zip(rows) {
        place.copy_from_slice(row);
    }
    (number::DONE, count)
}

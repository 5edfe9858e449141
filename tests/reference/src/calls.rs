//! The calls, on any bytes and any numbers.
//!
//! Every call but making fresh, lookup and range judges the whole store before
//! it trusts it, also where an argument would be refused anyway: of several
//! numbers the smallest is given, and those of judging are the smallest. Lookup
//! and range judge the header and the slots first, and of the pages only those
//! that they walk (2026-04).

use crate::edition::{Edition, FIRST, SECOND};
use crate::layout::HIGHEST_KEY;
use crate::state::{self, State};
use crate::{check as judging, convert as converter, number, reading, store, unjudged};

/// Makes a fresh store of edition 1 over any bytes of a fitting length.
pub fn fresh(bytes: &mut [u8]) -> u32 {
    make_fresh(&FIRST, bytes)
}

/// Makes a fresh store of edition 2 over any bytes of a fitting length.
pub fn fresh_second(bytes: &mut [u8]) -> u32 {
    make_fresh(&SECOND, bytes)
}

/// It "reads nothing of the lent bytes".
fn make_fresh(edition: &'static Edition, bytes: &mut [u8]) -> u32 {
    if !edition.length_fits(bytes.len()) {
        return number::LENGTH;
    }
    store::write_fresh(edition, bytes);
    number::DONE
}

/// Makes `target` a store of edition 2 in which every committed version reads
/// as in `source`, which is of edition 1 and has no update open. With 12 and 13
/// the target is a fresh store; every other refusal leaves it untouched.
pub fn convert(source: &[u8], target: &mut [u8]) -> u32 {
    match judging::named_edition(source) {
        Err(refusal) => return refusal,
        Ok(edition) if *edition != FIRST => return number::EDITION,
        Ok(_) => {}
    }
    if !SECOND.length_fits(target.len()) {
        return number::LENGTH;
    }
    if let Some(refusal) = judged(source) {
        return refusal;
    }
    if store::header(source).open {
        return number::ALREADY_OPEN;
    }
    converter::by_turning_points(source, target)
}

/// The number and, with 4, the lowest number of a broken rule.
pub fn check(bytes: &[u8]) -> (u32, u32) {
    judging::judge(bytes)
}

/// The number, and what the store tells of itself: 0 throughout where it is
/// refused.
pub fn state(bytes: &[u8]) -> (u32, State) {
    match judged(bytes) {
        Some(refusal) => (refusal, State::default()),
        None => (number::DONE, state::state(bytes)),
    }
}

pub fn open(bytes: &mut [u8]) -> u32 {
    judged(bytes).unwrap_or_else(|| unjudged::open(bytes))
}

pub fn insert(bytes: &mut [u8], key: u32, value: u32) -> u32 {
    judged(bytes).unwrap_or_else(|| unjudged::insert(bytes, key, value))
}

/// Insert as it was before 2026-06, to make stores from before. It is not
/// offered to the console.
pub fn raw_insert(bytes: &mut [u8], key: u32, value: u32) -> u32 {
    judged(bytes).unwrap_or_else(|| unjudged::raw_insert(bytes, key, value))
}

pub fn delete(bytes: &mut [u8], key: u32) -> u32 {
    judged(bytes).unwrap_or_else(|| unjudged::delete(bytes, key))
}

pub fn commit(bytes: &mut [u8]) -> u32 {
    judged(bytes).unwrap_or_else(|| unjudged::commit(bytes))
}

/// Commit as it was before 2026-05, to make stores from before. It is not
/// offered to the console.
pub fn raw_commit(bytes: &mut [u8]) -> u32 {
    judged(bytes).unwrap_or_else(|| unjudged::raw_commit(bytes))
}

pub fn abandon(bytes: &mut [u8]) -> u32 {
    judged(bytes).unwrap_or_else(|| unjudged::abandon(bytes))
}

/// Makes the open version's settings those of a committed version. With 12 and
/// 13 the whole update is abandoned.
pub fn return_to(bytes: &mut [u8], version: u32) -> u32 {
    judged(bytes).unwrap_or_else(|| unjudged::return_to(bytes, version))
}

/// The number, whether the key was found, and its value.
pub fn lookup(bytes: &[u8], key: u32, version: u32) -> (u32, bool, u32) {
    if let Some(refusal) = refused_before_walking(bytes, key > HIGHEST_KEY, version) {
        return (refusal, false, 0);
    }
    match reading::lookup(bytes, key, version) {
        Err(reading::Unsound) => (number::UNSOUND, false, 0),
        Ok(Some(value)) => (number::DONE, true, value),
        Ok(None) => (number::DONE, false, 0),
    }
}

/// The number and the count of settings found; their keys and values are
/// written to the front of `list`.
pub fn range(bytes: &[u8], low: u32, high: u32, version: u32, list: &mut [u32]) -> (u32, u64) {
    let wrong = low > HIGHEST_KEY || high > HIGHEST_KEY || low > high;
    if let Some(refusal) = refused_before_walking(bytes, wrong, version) {
        return (refusal, 0);
    }
    // "All of its walk is judged before 14 and before anything is written."
    let mut range = match reading::range(bytes, low, high, version) {
        Err(reading::Unsound) => return (number::UNSOUND, 0),
        Ok(range) => range,
    };
    if (list.len() as u64) < 2 * range.count {
        return (number::LIST_TOO_SHORT, range.count);
    }
    for (place, (key, value)) in list.chunks_exact_mut(2).zip(range.settings()) {
        place.copy_from_slice(&[key, value]);
    }
    (number::DONE, range.count)
}

/// The number by which a lookup or a range is refused for the header, a slot,
/// its keys or its version, in this order.
fn refused_before_walking(bytes: &[u8], wrong_key: bool, version: u32) -> Option<u32> {
    if let Some(refusal) = judging::judge_front(bytes) {
        return Some(refusal);
    }
    if wrong_key {
        return Some(number::ARGUMENT);
    }
    (!store::header(bytes).can_read(version)).then_some(number::VERSION)
}

/// The number and the count of pages that a lookup visits; their numbers, from
/// the root down to the leaf, are written to the front of `list`.
pub fn visits(bytes: &[u8], key: u32, version: u32, list: &mut [u32]) -> (u32, u32) {
    match judged(bytes) {
        Some(refusal) => (refusal, 0),
        None => unjudged::visits(bytes, key, version, list),
    }
}

/// The number and the count of differences between two versions, of which
/// `old` is the old side; four numbers each are written to the front of
/// `list`.
pub fn difference(bytes: &[u8], old: u32, new: u32, list: &mut [u32]) -> (u32, u32) {
    match judged(bytes) {
        Some(refusal) => (refusal, 0),
        None => unjudged::difference(bytes, old, new, list),
    }
}

/// The number and the count of stretches of committed versions in which the
/// key held one value; three numbers each are written to the front of `list`.
pub fn life(bytes: &[u8], key: u32, list: &mut [u32]) -> (u32, u32) {
    match judged(bytes) {
        Some(refusal) => (refusal, 0),
        None => unjudged::life(bytes, key, list),
    }
}

/// Drops what is only needed below a committed version: edition 2 alone.
pub fn prune(bytes: &mut [u8], version: u32) -> u32 {
    match judging::named_edition(bytes) {
        Err(refusal) => return refusal,
        Ok(edition) if *edition == FIRST => return number::EDITION,
        Ok(_) => {}
    }
    judged(bytes).unwrap_or_else(|| unjudged::prune(bytes, version))
}

/// The number by which judging refuses the store, if it does.
fn judged(bytes: &[u8]) -> Option<u32> {
    match judging::judge(bytes) {
        (number::DONE, _) => None,
        (refusal, _) => Some(refusal),
    }
}

//! Damage to rule 2: the directory's versions. Rule 1 says nothing of them.

use super::{some_between, OnBytes};
use crate::edition::Edition;
use crate::layout::at;
use crate::rng::Rng;
use crate::store;

pub const KINDS: &[(&str, OnBytes)] = &[
    ("no root at all", no_root),
    ("a directory that begins above the oldest", no_beginning),
    ("a second slot at or below the oldest", second_too_early),
    ("two slots of one version", slots_alike),
    ("a slot that falls behind", slot_falls),
    ("a slot above last", slot_above_last),
];

fn no_root(bytes: &mut [u8], _: &mut Rng) -> bool {
    for index in 0..store::header(bytes).roots {
        store::slot_bytes_mut(bytes, index).fill(0);
    }
    Edition::of(bytes).root_count.set(bytes, 0);
    true
}

fn set_version(bytes: &mut [u8], index: u32, version: u32) -> bool {
    at::SLOT_VERSION.set(store::slot_bytes_mut(bytes, index), version);
    true
}

fn no_beginning(bytes: &mut [u8], rng: &mut Rng) -> bool {
    let above = store::header(bytes).oldest + 1;
    let version = match rng.below(2) {
        0 => above,
        _ => rng.between(above, at::SLOT_VERSION.highest()),
    };
    set_version(bytes, 0, version)
}

/// The oldest version raised over the second slot's.
fn second_too_early(bytes: &mut [u8], rng: &mut Rng) -> bool {
    let header = store::header(bytes);
    let (Some(oldest), true) = (header.edition.oldest, header.roots > 1) else {
        return false;
    };
    let second = store::slot(bytes, 1).version;
    match some_between(rng, second, header.current) {
        Some(version) => oldest.set(bytes, version),
        None => return false,
    }
    true
}

fn slots_alike(bytes: &mut [u8], rng: &mut Rng) -> bool {
    match some_between(rng, 1, store::header(bytes).roots - 1) {
        Some(index) => {
            let version = store::slot(bytes, index - 1).version;
            set_version(bytes, index, version)
        }
        None => false,
    }
}

fn slot_falls(bytes: &mut [u8], rng: &mut Rng) -> bool {
    match some_between(rng, 2, store::header(bytes).roots - 1) {
        Some(index) => {
            let before = store::slot(bytes, index - 1).version;
            let version = rng.below(before);
            set_version(bytes, index, version)
        }
        None => false,
    }
}

fn slot_above_last(bytes: &mut [u8], rng: &mut Rng) -> bool {
    let header = store::header(bytes);
    let version = match rng.below(3) {
        0 => header.last() + 1,
        1 => at::SLOT_VERSION.highest(),
        _ => rng.between(header.last() + 1, at::SLOT_VERSION.highest()),
    };
    set_version(bytes, header.roots - 1, version)
}

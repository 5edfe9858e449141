//! Damage at random. Which rule it breaks, if any, is for two judges to say.

use crate::edition::Edition;
use crate::layout::{at, ALIVE, ENTRY_BYTES, PAGE_HEAD_BYTES, SLOT_BYTES};
use crate::rng::Rng;
use crate::store;

/// Changes up to `most` places: a bit once in `bits` times, else a field.
pub fn change_some(bytes: &mut [u8], most: u32, bits: u32, rng: &mut Rng) {
    for _ in 0..rng.between(1, most) {
        match rng.once_in(bits) {
            true => flip_bit(bytes, rng),
            false => set_some_field(bytes, rng),
        }
    }
}

/// Turns one bit round, mostly where bits mean something. The bytes may be
/// damaged already, but have a store's length.
pub fn flip_bit(bytes: &mut [u8], rng: &mut Rng) {
    let at = match rng.below(8) {
        0 => rng.below(bytes.len() as u32) as usize,
        1 => rng.below(11) as usize,
        _ => some_entry_at(bytes, rng) + rng.below(ENTRY_BYTES as u32) as usize,
    };
    bytes[at] ^= 1 << rng.below(8);
}

/// Sets some field of the header, a slot, a page or an entry to a number that
/// stands in such a field elsewhere, or to one beside it.
pub fn set_some_field(bytes: &mut [u8], rng: &mut Rng) {
    let header = store::header(bytes);
    let edition = header.edition;
    let pages = store::page_count(bytes);
    let version = match rng.below(4) {
        0 => ALIVE,
        _ => near(rng.between(0, header.last()), rng),
    };
    let number = near(rng.between(5, pages - 1), rng);
    let slot = rng.below(header.roots.clamp(1, edition.slots));
    let slot_at = edition.page_bytes + SLOT_BYTES * slot as usize;
    let other_at = some_entry_at(bytes, rng);
    let key = near(at::KEY.get(&bytes[other_at..]), rng);
    let entry_at = some_entry_at(bytes, rng);
    let page_at = entry_at / edition.page_bytes * edition.page_bytes;
    let (field, value, at) = match rng.below(18) {
        0 => (at::CURRENT, version, 0),
        1 => (at::OPEN_FLAG, rng.below(2), 0),
        2 => (at::SLOT_VERSION, version, slot_at),
        3 => (at::SLOT_ROOT, number, slot_at),
        4 => (edition.page_start, version, page_at),
        5 => (edition.page_end, version, page_at),
        6 | 7 => (at::ENTRY_START, version, entry_at),
        8 | 9 => (at::ENTRY_END, version, entry_at),
        10 => (at::VALUE, number, entry_at),
        17 => match edition.oldest {
            Some(oldest) => (oldest, version, 0),
            None => (at::KEY, key, entry_at),
        },
        16 => match edition.live_count {
            Some(live_count) => (live_count, near(rng.below(41), rng), page_at),
            None => (at::KEY, key, entry_at),
        },
        _ => (at::KEY, key, entry_at),
    };
    field.set(&mut bytes[at..], value & field.highest());
}

/// Where some used entry begins; page 5's first place if there is none.
fn some_entry_at(bytes: &[u8], rng: &mut Rng) -> usize {
    let edition = Edition::of(bytes);
    let count = |number: u32| edition.entry_count.get(store::page_bytes(bytes, number));
    let used: Vec<u32> = store::page_numbers(bytes)
        .filter(|number| count(*number) > 0)
        .collect();
    let number = *rng.pick(&used).unwrap_or(&5);
    let index = rng.below(count(number).clamp(1, edition.most_entries as u32));
    number as usize * edition.page_bytes + PAGE_HEAD_BYTES + ENTRY_BYTES * index as usize
}

/// The number, or one beside it.
fn near(number: u32, rng: &mut Rng) -> u32 {
    match rng.below(3) {
        0 => number.wrapping_add(1),
        1 => number.wrapping_sub(1),
        _ => number,
    }
}

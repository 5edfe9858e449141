//! "When a store is sound": judging any bytes, and the lowest broken rule.
//!
//! Each rule is tested on its own over the whole store, once all lower ones
//! hold. A single walk that tested rules 4 and 5 together would answer 5 for a
//! store that breaks 5 at version 1 and 4 at version 3; the answer is 4.
//!
//! Rule 7 follows from rules 1 and 3 but for routers that rule 3 skips: an entry
//! of a page that starts at the open version starts there or later, by rule 1 no
//! later; its span is not empty and its end is at most the open version or
//! alive, so it is alive.

mod bounds;
mod directory;
mod fields;
mod fill;
mod live_counts;
mod newest;
mod reach;
mod spans;

pub use fields::page_holds;

use crate::edition::{Edition, FIRST};
use crate::image::Image;
use crate::layout::{Slot, FOUR_BYTES};
use crate::{number, store};

/// The number that judging gives for these bytes and, with 4, the lowest
/// number of a broken rule (else 0).
pub fn judge(store: &[u8]) -> (u32, u32) {
    if let Some(refusal) = another_thing(store) {
        return (refusal, 0);
    }
    match lowest_broken_rule(store) {
        None => (number::DONE, 0),
        Some(rule) => (number::UNSOUND, rule),
    }
}

/// 1, 2 or 3 for bytes that are no store. "Fewer than five bytes gives 1;
/// otherwise 2, then 3, then 1 by the edition's page size" (2026-08).
fn another_thing(store: &[u8]) -> Option<u32> {
    match named_edition(store) {
        Err(refusal) => Some(refusal),
        Ok(edition) => (!edition.length_fits(store.len())).then_some(number::LENGTH),
    }
}

/// The edition that the bytes name, whatever their length above four; else the
/// number of the refusal.
pub fn named_edition(store: &[u8]) -> Result<&'static Edition, u32> {
    if store.len() < 5 {
        return Err(number::LENGTH);
    }
    if store[..4] != FOUR_BYTES {
        return Err(number::FOUR_BYTES);
    }
    Edition::named(store[4]).ok_or(number::EDITION)
}

/// What judging gave before 2026-08, to which there was edition 1 alone:
/// "programs of edition 1 give 1 or 3 and never an answer".
pub fn judge_as_edition_1(store: &[u8]) -> (u32, u32) {
    if !FIRST.length_fits(store.len()) {
        return (number::LENGTH, 0);
    }
    if store[..4] != FOUR_BYTES {
        return (number::FOUR_BYTES, 0);
    }
    if store[4] != FIRST.number {
        return (number::EDITION, 0);
    }
    match lowest_broken_rule(store) {
        None => (number::DONE, 0),
        Some(rule) => (number::UNSOUND, rule),
    }
}

/// The number by which a lookup or a range is refused before it looks at its
/// arguments (2026-04): "with 5 or 6 only the header and the slots are judged
/// first", all of them, by rules 1 and 2.
pub fn judge_front(store: &[u8]) -> Option<u32> {
    another_thing(store).or_else(|| (!front_holds(store)).then_some(number::UNSOUND))
}

fn front_holds(bytes: &[u8]) -> bool {
    if !fields::front_holds(bytes) {
        return false;
    }
    let header = store::header(bytes);
    let slots: Vec<Slot> = (0..header.roots).map(|i| store::slot(bytes, i)).collect();
    directory::holds(&slots, header)
}

fn lowest_broken_rule(store: &[u8]) -> Option<u32> {
    if !fields::hold(store) {
        return Some(1);
    }
    let image = Image::read(store);
    if !directory::holds(&image.slots, image.header) {
        return Some(2);
    }
    if !spans::hold(&image) {
        return Some(3);
    }
    let versions = image.turning_points();
    if !versions.iter().all(|v| bounds::hold(&image, *v)) {
        return Some(4);
    }
    if !versions.iter().all(|v| fill::holds(&image, *v)) {
        return Some(5);
    }
    if !versions.iter().all(|v| reach::holds(&image, *v)) {
        return Some(6);
    }
    if !newest::holds(&image) {
        return Some(7);
    }
    if !live_counts::hold(store) {
        return Some(8);
    }
    None
}

//! Rule 2: the first slot's version is at most the oldest (2026-12; in edition 1
//! that is 0), the others' are above it; they rise strictly, and are at most
//! last.

use crate::layout::{Header, Slot};

/// A directory without any root does not begin at or below the oldest.
pub fn holds(slots: &[Slot], header: Header) -> bool {
    let Some((first, others)) = slots.split_first() else {
        return false;
    };
    first.version <= header.oldest
        && others.iter().all(|slot| slot.version > header.oldest)
        && slots.iter().all(|slot| slot.version <= header.last())
        && slots
            .windows(2)
            .all(|pair| pair[0].version < pair[1].version)
}

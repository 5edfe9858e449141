//! "A converter makes its target a fresh edition 2 store [..] and replays into
//! it each version's differences" (2026-08).
//!
//! Nothing of the source but its settings matters. The number is that of the
//! first step that is refused, 12 or 13, and the target is then a fresh store.

use crate::edition::SECOND;
use crate::image::Image;
use crate::layout::Header;
use crate::model::Settings;
use crate::{number, returning, store, unjudged, walk};

/// The replay version by version: "for each version from 1 to current: open,
/// the difference's deletes in rising key order, its inserts in rising key
/// order, commit without 15". Wants a sound source of edition 1 with no update
/// open, and a target whose length fits.
pub fn literally(source: &[u8], target: &mut [u8]) -> u32 {
    store::write_fresh(&SECOND, target);
    for version in 1..=store::header(source).current {
        let number = replay(target, &walk::settings(source, version));
        if number != number::DONE {
            return number;
        }
    }
    number::DONE
}

/// The same, with a step for each version at which anything starts or ends in
/// the source. Between two of them no setting changes: such a version is
/// opened and committed, which raises the current version and does no more.
pub fn by_turning_points(source: &[u8], target: &mut [u8]) -> u32 {
    store::write_fresh(&SECOND, target);
    let versions = Image::read(source).turning_points();
    for version in versions.into_iter().filter(|version| *version > 0) {
        raise_current(target, version - 1);
        let number = replay(target, &walk::settings(source, version));
        if number != number::DONE {
            return number;
        }
    }
    raise_current(target, store::header(source).current);
    number::DONE
}

/// One version: its settings are `there`. Where a step is refused the target is
/// a fresh store again.
fn replay(target: &mut [u8], there: &Settings) -> u32 {
    unjudged::open(target);
    let number = returning::make_steps_to(target, there);
    if number == number::DONE {
        return unjudged::raw_commit(target);
    }
    store::write_fresh(&SECOND, target);
    number
}

fn raise_current(target: &mut [u8], current: u32) {
    let header = store::header(target);
    store::write_header(target, Header { current, ..header });
}

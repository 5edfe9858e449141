//! "Return to an earlier version" (2026-07).

use crate::model::Settings;
use crate::{number, store, unjudged, walk};

/// The single calls that a return makes.
pub struct Steps {
    /// "Keys absent there or with another value", rising.
    pub deletes: Vec<u32>,
    /// "What is missing" once these are gone, rising.
    pub inserts: Vec<(u32, u32)>,
}

/// The steps from the settings `here` to those `there`.
pub fn steps(here: &Settings, there: &Settings) -> Steps {
    let gone = here
        .iter()
        .filter(|(key, value)| there.get(key) != Some(value));
    let missing = there
        .iter()
        .filter(|(key, value)| here.get(key) != Some(value));
    Steps {
        deletes: gone.map(|(key, _)| *key).collect(),
        inserts: missing.map(|(key, value)| (*key, *value)).collect(),
    }
}

/// Makes the steps to the settings of `version`, "each exactly as the single
/// call", up to the first that is refused; its number, or 0. Wants a sound
/// store with an update open.
pub fn make_steps(bytes: &mut [u8], version: u32) -> u32 {
    let there = walk::settings(bytes, version);
    make_steps_to(bytes, &there)
}

/// The same to settings that may stand in another store.
pub fn make_steps_to(bytes: &mut [u8], there: &Settings) -> u32 {
    let here = walk::settings(bytes, store::header(bytes).last());
    let Steps { deletes, inserts } = steps(&here, there);
    for key in deletes {
        let number = unjudged::delete(bytes, key);
        if number != number::DONE {
            return number;
        }
    }
    for (key, value) in inserts {
        // "Bench keys from before 2026-06 are let through here."
        let number = unjudged::raw_insert(bytes, key, value);
        if number != number::DONE {
            return number;
        }
    }
    number::DONE
}

//! "What differs between two versions?" (2026-03)

use std::collections::BTreeSet;

use crate::model::Settings;

pub const ADDED: u32 = 0;
pub const REMOVED: u32 = 1;
pub const CHANGED: u32 = 2;

/// "Keys added, removed, or with another value", in key order. Each takes four
/// numbers: key, kind, the old value and the new, "zero where there is none".
pub fn differences(old: &Settings, new: &Settings) -> Vec<[u32; 4]> {
    let keys: BTreeSet<u32> = old.keys().chain(new.keys()).copied().collect();
    let differing = keys.into_iter().filter_map(|key| {
        let sides = (old.get(&key).copied(), new.get(&key).copied());
        match sides {
            (None, Some(value)) => Some([key, ADDED, 0, value]),
            (Some(value), None) => Some([key, REMOVED, value, 0]),
            (Some(one), Some(other)) if one != other => Some([key, CHANGED, one, other]),
            _ => None,
        }
    });
    differing.collect()
}

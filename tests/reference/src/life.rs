//! "When was this setting changed?" (2026-01)
//!
//! "Every stretch of committed versions in which it held one value, oldest
//! first": start, end and value. A stretch ends at the first version behind
//! it, or is alive where the current version is in it, whatever an open update
//! has done since. None starts before the oldest version (2026-12).

use crate::image::Image;
use crate::layout::ALIVE;
use crate::{store, walk};

/// The stretches of `key`, asked for at every committed version.
pub fn literally(bytes: &[u8], key: u32) -> Vec<[u32; 3]> {
    let header = store::header(bytes);
    let value = |version| (version, walk::lookup(bytes, key, version));
    stretches((header.oldest..=header.current).map(value))
}

/// The same, asked for only where anything starts or ends: between two such
/// versions no setting changes.
pub fn by_turning_points(bytes: &[u8], key: u32) -> Vec<[u32; 3]> {
    let image = Image::read(bytes);
    let versions = image.turning_points().into_iter();
    let committed = versions.take_while(|version| *version <= image.header.current);
    stretches(committed.map(|version| (version, walk::lookup(bytes, key, version))))
}

/// The stretches of a key whose value is given at rising versions, and is the
/// same from each up to the next.
pub fn stretches(values: impl Iterator<Item = (u32, Option<u32>)>) -> Vec<[u32; 3]> {
    let mut stretches: Vec<[u32; 3]> = Vec::new();
    let mut before = None;
    for (version, value) in values {
        if value == before {
            continue;
        }
        if let (Some(_), Some(ended)) = (before, stretches.last_mut()) {
            ended[1] = version;
        }
        stretches.extend(value.map(|value| [version, ALIVE, value]));
        before = value;
    }
    stretches
}

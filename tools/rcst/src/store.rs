//! Calls that fill a list, with a list that is as long as the answer; and calls
//! whose numbers are faults.

use rcst::limits::{ALIVE, HIGHEST_KEY, MOST_PAGES};
use rcst::naming::Viewer;
use rcst::number;

use crate::fault::Fault;

/// More settings than this stand in no sound store of any edition.
const MOST_SETTINGS: usize = MOST_PAGES * 40;

/// A difference between two versions.
#[derive(Clone, Copy, Debug, PartialEq, Eq)]
pub enum Change {
    Added(u32),
    Removed(u32),
    Changed(u32, u32),
}

/// A stretch of versions in which a key held one value; no end if it still does.
#[derive(Clone, Copy, Debug, PartialEq, Eq)]
pub struct Stretch {
    pub start: u32,
    pub end: Option<u32>,
    pub value: u32,
}

/// Asks twice: once for the count, and once with a list for it.
pub fn listed(
    each: usize,
    mut ask: impl FnMut(&mut [u32]) -> (u32, usize),
) -> Result<Vec<u32>, u32> {
    let (given, count) = ask(&mut []);
    match given {
        number::DONE => return Ok(Vec::new()),
        number::LIST_TOO_SHORT if count <= MOST_SETTINGS => {}
        number::LIST_TOO_SHORT => return Err(number::NOT_SOUND),
        refused => return Err(refused),
    }
    let mut list = vec![0; each * count];
    match ask(&mut list) {
        (number::DONE, _) => Ok(list),
        (refused, _) => Err(refused),
    }
}

/// Keys and values from low to high at a version.
pub fn range(store: &[u8], low: u32, high: u32, version: u32) -> Result<Vec<(u32, u32)>, u32> {
    listed(2, |list| rcst::range(store, low, high, version, list)).map(pairs)
}

/// The same by name: 17 where one of the keys is unknown to the viewer's table.
pub fn viewed(viewer: Viewer, low: u32, high: u32) -> Result<Vec<(u32, u32)>, u32> {
    listed(2, |list| viewer.range(low, high, list)).map(pairs)
}

fn pairs(list: Vec<u32>) -> Vec<(u32, u32)> {
    let pairs = list.chunks_exact(2).map(|pair| (pair[0], pair[1]));
    pairs.collect()
}

/// All keys and values at a version.
pub fn all(store: &[u8], version: u32) -> Result<Vec<(u32, u32)>, u32> {
    range(store, 0, HIGHEST_KEY, version)
}

/// What differs from one version to another, by key.
pub fn difference(store: &[u8], old: u32, new: u32) -> Result<Vec<(u32, Change)>, u32> {
    let list = listed(4, |list| rcst::difference(store, old, new, list))?;
    let change = |four: &[u32]| match four[1] {
        0 => Change::Added(four[3]),
        1 => Change::Removed(four[2]),
        _ => Change::Changed(four[2], four[3]),
    };
    Ok(list
        .chunks_exact(4)
        .map(|four| (four[0], change(four)))
        .collect())
}

/// The life of a key, oldest stretch first.
pub fn life(store: &[u8], key: u32) -> Result<Vec<Stretch>, u32> {
    let list = listed(3, |list| rcst::life(store, key, list))?;
    let stretch = |three: &[u32]| Stretch {
        start: three[0],
        end: Some(three[1]).filter(|end| *end != ALIVE),
        value: three[2],
    };
    Ok(list.chunks_exact(3).map(stretch).collect())
}

/// A call of an update that must be done.
pub fn done(what: impl std::fmt::Display, given: u32) -> Result<(), Fault> {
    match given {
        number::DONE => Ok(()),
        refused => Err(Fault::number(what, refused)),
    }
}

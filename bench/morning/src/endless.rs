//! A mix without end on a store of edition 2 that is pruned to its last versions: in
//! how few pages it runs.

use reference::number;
use reference::unjudged::prune;

use crate::mix::{Kind, Mix};

pub const MOST_PAGES: usize = 4096;
/// Pages of header and directory.
const FRONT: usize = 5;

/// Where a run ended: how many versions it made, how many pages it had in use at once,
/// header and directory among them, and without those at its end, and the number that
/// stopped it, if one did.
#[derive(Clone, Copy, Debug, PartialEq, Eq)]
pub struct Ran {
    pub versions: u32,
    pub pages: usize,
    pub used: usize,
    pub stopped: Option<u32>,
}

/// The oldest version once this one is the last of those that are kept: after twice as
/// many as are kept, and then after each so many.
pub fn due(version: u32, kept: u32) -> Option<u32> {
    (version % kept == 0 && version > kept).then(|| version + 1 - kept)
}

/// Rounds of a mix, in so many pages, until it has made so many versions; `seen` is
/// shown the mix behind each round, and whether a prune to some version comes next.
pub fn run(
    kind: Kind,
    pages: usize,
    versions: u32,
    kept: u32,
    mut seen: impl FnMut(&Mix, Option<u32>),
) -> Ran {
    let mut mix = Mix::endless(kind, 1, pages);
    let mut stopped = None;
    while mix.current() < versions && stopped.is_none() {
        let before = mix.current();
        mix.lines.clear();
        stopped = mix.round();
        let oldest = due(mix.current(), kept).filter(|_| mix.current() > before);
        seen(&mix, oldest);
        if let Some(oldest) = oldest {
            assert_eq!(prune(&mut mix.bytes, oldest), number::DONE);
        }
    }
    Ran {
        versions: mix.current(),
        pages: mix.highest as usize + 1,
        used: pages - FRONT - mix.shape().1,
        stopped,
    }
}

/// The same without prunes.
pub fn never_pruned(kind: Kind, pages: usize, versions: u32) -> Ran {
    ran(kind, pages, versions, u32::MAX)
}

/// The same with nobody looking on.
pub fn ran(kind: Kind, pages: usize, versions: u32, kept: u32) -> Ran {
    run(kind, pages, versions, kept, |_, _| {})
}

/// The fewest pages in which the mix makes so many versions, the last `kept` of them
/// kept, and where it ends with one page less; or where it ends in as many as a store
/// may have.
pub fn fewest(kind: Kind, versions: u32, kept: u32) -> Result<(usize, Ran), Ran> {
    let all = ran(kind, MOST_PAGES, versions, kept);
    if all.stopped.is_some() {
        return Err(all);
    }
    assert_eq!(ran(kind, all.pages, versions, kept), all);
    Ok((all.pages, ran(kind, all.pages - 1, versions, kept)))
}

/// The most versions that can be kept so in as many pages as a store may have, of
/// which `none` cannot.
pub fn most_kept(kind: Kind, versions: u32, none: u32) -> u32 {
    let (mut fits, mut not) = (1, none);
    while fits + 1 < not {
        let middle = (fits + not) / 2;
        match ran(kind, MOST_PAGES, versions, middle).stopped {
            None => fits = middle,
            Some(_) => not = middle,
        }
    }
    fits
}

//! The versions before a pruned store's oldest: their numbers are used up, and what
//! they said is gone.

use std::collections::BTreeSet;

use crate::change::{self, Change, Said};
use crate::fault::Fault;
use crate::names::Names;
use crate::progress::Progress;
use crate::store::done;

/// The one setting of such a version.
const KEY: u32 = 0;

/// So many versions of one setting take less than two pages of edition 2.
const DROPPED: u32 = 32;

/// Makes a release of each version before the oldest, with one setting whose value
/// changes from one to the next, and drops them as it goes. The values are none that
/// the text gives the key, so what comes next differs from the last of them.
pub fn pass(store: &mut [u8], oldest: u32, text: &str) -> Result<(), Fault> {
    let values = unsaid(text);
    let mut progress = Progress::of("versions passed over");
    for version in 1..oldest {
        let step = |given| done(format!("version {version}, which was pruned"), given);
        step(rcst::open(store))?;
        if version > 1 {
            step(rcst::delete(store, KEY))?;
        }
        step(rcst::insert(store, KEY, values[version as usize % 2]))?;
        step(rcst::commit(store))?;
        if version % DROPPED == 0 {
            step(rcst::prune(store, version))?;
        }
        progress.step(version as usize, oldest as usize);
    }
    Ok(())
}

/// Ends what the version before the oldest shows, in the oldest one.
pub fn end(store: &mut [u8], oldest: u32) -> Result<(), Fault> {
    match oldest {
        0 | 1 => Ok(()),
        _ => done(format!("version {oldest}"), rcst::delete(store, KEY)),
    }
}

/// Two values that a text never gives the key.
fn unsaid(text: &str) -> [u32; 2] {
    let names = Names::none();
    let lines = text.lines();
    let said = lines.filter_map(|line| change::of(0, line, &names).ok().flatten());
    let value = |said: Said| match said.change {
        Change::Set(KEY, value) => Some(value),
        _ => None,
    };
    let said: BTreeSet<u32> = said.filter_map(value).collect();
    let mut unsaid = (0..=u32::MAX).filter(|value| !said.contains(value));
    [(); 2].map(|()| unsaid.next().expect("fewer lines than numbers"))
}

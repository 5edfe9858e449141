//! Fresh stores in memory, of either edition.

use rcst::limits::{MOST_PAGES, PAGE_BYTES, SECOND_PAGE_BYTES};
use rcst::number::WRONG_EDITION;

use crate::fault::Fault;
use crate::store::done;

/// Bytes for so many pages of edition 2. More than any store has are refused as they
/// stand, and not asked of memory.
pub fn second(pages: usize) -> Vec<u8> {
    vec![0; pages.min(MOST_PAGES + 1) * SECOND_PAGE_BYTES]
}

/// A fresh store of an edition.
pub fn fresh(pages: usize, edition: u32) -> Result<Vec<u8>, Fault> {
    let mut store;
    let made = match edition {
        1 => {
            store = vec![0; pages.min(MOST_PAGES + 1) * PAGE_BYTES];
            rcst::fresh(&mut store)
        }
        2 => {
            store = second(pages);
            rcst::fresh_second(&mut store)
        }
        _ => {
            let what = format!("edition {edition}");
            return Err(Fault::number(what, WRONG_EDITION));
        }
    };
    done(format!("{pages} pages"), made)?;
    Ok(store)
}

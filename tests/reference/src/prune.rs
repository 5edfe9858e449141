//! "Drop what the law lets us drop" (2026-12).

use crate::layout::Page;
use crate::{store, walk};

/// The oldest version becomes `version`; every page that ended at or before it
/// is freed and zeroed; the slots before the one that is its root's go, and the
/// others close up. Entries stay where they are. Wants a sound store with no
/// update open, and a committed version at least the oldest.
pub fn prune(bytes: &mut [u8], version: u32) {
    let mut header = store::header(bytes);
    for number in store::page_numbers(bytes) {
        if store::page(bytes, number).span.end <= version {
            store::write_page(bytes, number, &Page::free());
        }
    }
    let needed = walk::slot_index(bytes, version);
    for index in 0..header.roots {
        let from = index + needed;
        if from < header.roots {
            let slot = store::slot(bytes, from);
            store::write_slot(bytes, index, slot);
        } else {
            store::slot_bytes_mut(bytes, index).fill(0);
        }
    }
    header.oldest = version;
    header.roots -= needed;
    store::write_header(bytes, header);
}

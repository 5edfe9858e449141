//! Rule 3: spans in spans, levels falling by one, no slot to a free page.

use crate::image::Image;
use crate::layout::{Entry, Page};

/// Dead entries and pages that no version reaches are meant too.
pub fn hold(image: &Image) -> bool {
    image
        .slots
        .iter()
        .all(|slot| !image.page(slot.root).is_free())
        && image.used().all(|(_, page)| {
            page.entries
                .iter()
                .all(|entry| entry_holds(image, page, entry))
        })
}

/// "Rule 3 skips routers whose span ended at or before the oldest (their pages
/// may be free or used again)", wholly (2026-12).
fn entry_holds(image: &Image, page: &Page, entry: &Entry) -> bool {
    if page.is_index() && entry.span.end <= image.header.oldest {
        return true;
    }
    entry.span.lies_in(page.span) && (!page.is_index() || router_holds(image, page, entry))
}

/// A free child has level 0, which is never one below an index page's.
fn router_holds(image: &Image, page: &Page, router: &Entry) -> bool {
    let child = image.page(router.value);
    child.level + 1 == page.level && router.span.lies_in(child.span)
}

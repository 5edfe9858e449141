//! Rule 5: each reached page has enough live entries.

use crate::image::Image;

/// Whether the walk from the root of `version` finds rule 5 kept. Rule 4
/// holds by now, so a page with live entries is met once (see `bounds`).
pub fn holds(image: &Image, version: u32) -> bool {
    let root = image.root(version);
    let fewest = if image.page(root).is_index() { 2 } else { 0 };
    holds_from(image, root, fewest, version)
}

fn holds_from(image: &Image, number: u32, fewest: usize, version: u32) -> bool {
    let page = image.page(number);
    let enough = page.live(version).count() >= fewest;
    let fewest_below = image.edition().fewest_live;
    let children_hold = || {
        page.live(version)
            .all(|router| holds_from(image, router.value, fewest_below, version))
    };
    enough && (!page.is_index() || children_hold())
}

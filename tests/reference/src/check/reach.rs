//! Rule 6: a page is reached at every version of its span and at no other.

use crate::image::Image;
use crate::layout::MOST_PAGES;

/// Whether the pages reached at `version` are just the used pages whose span
/// contains it. Starts and ends of pages are turning points, so testing there
/// tests every version from the oldest on.
pub fn holds(image: &Image, version: u32) -> bool {
    let mut reached = [false; MOST_PAGES];
    mark(image, image.root(version), version, &mut reached);
    image.numbered().all(|(number, page)| {
        let expected = !page.is_free() && page.span.contains(version);
        reached[number as usize] == expected
    })
}

fn mark(image: &Image, number: u32, version: u32, reached: &mut [bool; MOST_PAGES]) {
    reached[number as usize] = true;
    let page = image.page(number);
    if page.is_index() {
        for router in page.live(version) {
            mark(image, router.value, version, reached);
        }
    }
}

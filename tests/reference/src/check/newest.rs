//! Rule 7: a page that starts at the open version holds only alive entries that
//! start there.

use crate::image::Image;
use crate::layout::Span;

pub fn holds(image: &Image) -> bool {
    let last = image.header.last();
    let newest = Span::alive_from(last);
    let active = |start: u32| image.header.open && start == last;
    image
        .used()
        .filter(|(_, page)| active(page.span.start))
        .all(|(_, page)| page.entries.iter().all(|entry| entry.span == newest))
}

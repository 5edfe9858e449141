//! Every page in itself, and the pages that its routers lead to.
//!
//! Each function takes what is left of the budget; where nothing is left what it
//! says means nothing.

use reference::layout::{FEWEST_LIVE, HIGHEST_LEVEL, LEAF};

use super::read::Reading;
use super::stretch::{fine_over, high_over, past, past_behind, Stretch};
use super::{numbers, part};

/// From the highest level down: where the levels above hold, at no version do two
/// ways lead to one page.
pub fn pages_fine<R: Reading>(store: &[u8], left: &mut u32) -> bool {
    let mut levels = (LEAF..=HIGHEST_LEVEL).rev();
    levels.all(|level| {
        let mut pages = numbers(store).map(|number| part(store, number));
        pages.all(|page| R::head(page).level != level || page_fine::<R>(store, page, left))
    })
}

fn page_fine<R: Reading>(store: &[u8], page: &[u8], left: &mut u32) -> bool {
    let head = R::head(page);
    all_apart::<R>(page, head.count)
        && (head.level == LEAF
            || (0..head.count).all(|place| router_fine::<R>(store, page, place, left)))
}

/// Entries stand in order, so that each to the next is enough.
fn all_apart<R: Reading>(page: &[u8], count: usize) -> bool {
    (1..count).all(|place| {
        let (one, other) = (R::entry(page, place - 1), R::entry(page, place));
        one.key != other.key || one.end <= other.start
    })
}

fn router_fine<R: Reading>(store: &[u8], page: &[u8], place: usize, left: &mut u32) -> bool {
    let router = R::entry(page, place);
    let child = part(store, router.value as usize);
    let stretch = Stretch::of(router);
    fine_over::<R>(child, FEWEST_LIVE, router.key, stretch)
        && nexts_fine::<R>(store, child, page, place + 1, stretch, left)
}

/// The keys under the child are under the low key of the next router alive.
fn nexts_fine<R: Reading>(
    store: &[u8],
    child: &[u8],
    page: &[u8],
    place: usize,
    stretch: Stretch,
    left: &mut u32,
) -> bool {
    let mut rest = stretch;
    for place in place..R::head(page).count {
        if rest.is_empty() {
            return true;
        }
        let next = R::entry(page, place);
        if !under::<R>(store, child, next.key, rest.within(next), left) {
            return false;
        }
        rest.from = past(rest.from, next);
    }
    true
}

/// Throughout the stretch the live keys under the page are under `high`. A page
/// that is read takes one of what is left.
fn under<R: Reading>(
    store: &[u8],
    page: &[u8],
    high: u32,
    stretch: Stretch,
    left: &mut u32,
) -> bool {
    if stretch.is_empty() {
        return true;
    }
    if *left == 0 {
        return false;
    }
    *left -= 1;
    let head = R::head(page);
    if head.level == LEAF {
        return high_over::<R>(page, head.count, high, stretch);
    }
    (0..head.count).all(|place| {
        let router = R::entry(page, place);
        let own = stretch.within(router);
        if own.is_empty() {
            return true;
        }
        let last = past_behind::<R>(page, head.count, place + 1, own);
        let child = part(store, router.value as usize);
        router.key < high && under::<R>(store, child, high, last, left)
    })
}

//! Damage to rule 5: too few live entries on a reached page.

use super::{is_first_somewhere, root_outside_span, some_leaf_met, some_leaf_met_at};
use super::{some_page, OnValues, Place};
use crate::image::Image;
use crate::rng::Rng;

pub const KINDS: &[(&str, OnValues)] = &[
    ("a leaf with too few settings", thin_leaf),
    ("settings that end too early", ends_early),
    ("an index page with too few routers", thin_index_page),
    (
        "an index root read outside its span",
        index_root_outside_span,
    ),
];

fn index_root_outside_span(image: &mut Image, rng: &mut Rng) -> Option<()> {
    root_outside_span(image, rng, true)
}

/// Leaves without some settings break no lower rule.
fn thin_leaf(image: &mut Image, rng: &mut Rng) -> Option<()> {
    let met = some_leaf_met(image, rng)?;
    if met.leaf == image.root(met.version) {
        return None;
    }
    let left = rng.below(image.edition().fewest_live as u32) as usize;
    keep_live(image, rng, met.leaf, met.version, left, |_, _| true)
}

/// The settings of a leaf end at last, all but too few; often nothing else
/// starts or ends there.
fn ends_early(image: &mut Image, rng: &mut Rng) -> Option<()> {
    let last = image.header.last();
    let fewest = image.edition().fewest_live;
    let met = some_leaf_met_at(image, rng, last);
    if met.leaf == image.root(last) {
        return None;
    }
    let entries = &mut image.page_mut(met.leaf).entries;
    let live = entries.iter().filter(|entry| entry.span.contains(last));
    let newest = live.filter(|entry| entry.span.start == last).count();
    let mut left = rng.between(newest as u32, newest.max(fewest - 1) as u32);
    for entry in entries.iter_mut().filter(|e| e.span.contains(last)) {
        if entry.span.start == last {
            continue;
        }
        if left > newest as u32 {
            left -= 1;
        } else {
            entry.span.end = last;
        }
    }
    (newest < fewest).then_some(())
}

/// Removes entries of a page that `may_go` until `left` are live at `version`.
fn keep_live(
    image: &mut Image,
    rng: &mut Rng,
    number: u32,
    version: u32,
    left: usize,
    may_go: impl Fn(&Image, Place) -> bool,
) -> Option<()> {
    let page = image.page(number);
    let places = (0..page.entries.len()).map(|index| Place {
        page: number,
        index,
    });
    let goes = |place: &Place| {
        let alive = page.entries[place.index].span.contains(version);
        alive && may_go(image, *place)
    };
    let mut going: Vec<usize> = places.filter(goes).map(|place| place.index).collect();
    let surplus = page.live(version).count().checked_sub(left)?;
    rng.shuffle(&mut going);
    let mut going = going.get(..surplus)?.to_vec();
    going.sort_unstable();
    for index in going.into_iter().rev() {
        image.page_mut(number).entries.remove(index);
    }
    Some(())
}

/// A router that is nowhere its page's first may go: the one before it then
/// bounds its own child less tightly, and rule 4 holds. What it led to is not
/// reached, but that is rule 6.
fn thin_index_page(image: &mut Image, rng: &mut Rng) -> Option<()> {
    let number = some_page(image, rng, |page| page.is_index())?;
    let versions = image.turning_points();
    let page = image.page(number);
    let own: Vec<u32> = versions
        .into_iter()
        .filter(|version| page.span.contains(*version))
        .collect();
    let version = *rng.pick(&own)?;
    let fewest = match image.root(version) == number {
        true => 2,
        false => image.edition().fewest_live,
    };
    let left = rng.between(1, fewest as u32 - 1) as usize;
    keep_live(image, rng, number, version, left, |image, place| {
        !is_first_somewhere(image, place)
    })
}

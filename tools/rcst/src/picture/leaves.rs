//! Leaf pages over keys and versions.

use std::collections::BTreeSet;

use super::axes::{Across, Down, LEFT, TOP};
use super::events::{events, Event};
use super::regions::{regions, Region};
use super::svg::{colour, Svg};
use crate::plain::page::header;

const WIDTH: f64 = 810.0;

/// High enough that a version is seen, up to a page's height.
fn height(versions: u32) -> f64 {
    (13.2 * f64::from(versions)).clamp(120.0, 900.0)
}

pub fn drawn(store: &[u8]) -> String {
    let events = events(store);
    let across = Across {
        keys: events.keys().copied().collect(),
        width: WIDTH,
    };
    let (oldest, last) = (header(store).oldest, header(store).last());
    let down = Down {
        oldest,
        last,
        height: height(last + 1 - oldest),
    };
    let (right, bottom) = (LEFT + WIDTH, TOP + down.height);
    let title = "Leaf pages over keys and versions";
    let mut svg = Svg::new(right + 20.0, bottom + 60.0, title);
    for region in regions(store) {
        boxed(&mut svg, &region, &across, &down);
    }
    marks(&mut svg, &events, &across, &down);
    across.named(&mut svg, bottom + 16.0);
    down.named(&mut svg);
    svg.text(
        LEFT + WIDTH / 2.0,
        bottom + 34.0,
        "middle",
        12,
        "keys, in order",
    );
    svg.upright(20.0, TOP + down.height / 2.0, "versions");
    let legend =
        "box: a leaf page, for as long as it lived; dot: a setting gets a value; bar: it ends";
    svg.text(LEFT + WIDTH / 2.0, bottom + 50.0, "middle", 11, legend);
    svg.end()
}

/// A page, with its number where there is room for it.
fn boxed(svg: &mut Svg, region: &Region, across: &Across, down: &Down) {
    let Region {
        number,
        span,
        low,
        high,
    } = *region;
    let (left, right) = (across.edge(low), across.edge(high));
    let (top, bottom) = (down.edge(span.start), down.edge(span.end));
    let last = span.end.min(down.last + 1) - 1;
    let told = format!(
        "page {number}: keys {low} to {}, versions {} to {last}",
        high - 1,
        span.start.max(down.oldest)
    );
    let size = (right - left, bottom - top);
    svg.rect((left, top), size, colour(number), told);
    let words = number.to_string();
    if size.0 >= 7.0 * words.len() as f64 + 4.0 && size.1 >= 12.0 {
        let down = size.1.min(18.0) - 2.0;
        svg.text(left + 3.0, top + down, "start", 11, words);
    }
}

/// Dots and bars; of several that would stand on one spot, one.
fn marks(
    svg: &mut Svg,
    events: &std::collections::BTreeMap<u32, Vec<(u32, Event)>>,
    across: &Across,
    down: &Down,
) {
    let radius = (across.step().min(down.step()) / 3.0).clamp(0.7, 1.6);
    let mut taken = BTreeSet::new();
    for (key, events) in events {
        let x = across.middle(*key);
        for (version, event) in events {
            let y = down.edge(*version);
            if !taken.insert(((2.0 * x) as i64, (2.0 * y) as i64, *event == Event::Set)) {
                continue;
            }
            match event {
                Event::Set => svg.dot(x, y + (down.step() / 2.0).min(3.0), radius),
                Event::Ended => svg.bar(x, y - (down.step() / 4.0).min(1.0), radius + 0.4),
            }
        }
    }
}

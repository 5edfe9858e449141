//! The pages of one version, from the root down.

use super::svg::{colour, Svg};
use crate::plain::page::{self, LEAF};

const WIDTH: f64 = 860.0;
const HIGH: f64 = 34.0;
const APART: f64 = 90.0;

/// A page of the version: its number, its entries alive then, and which page of
/// the level above leads to it.
struct Node {
    number: usize,
    live: usize,
    level: u32,
    above: usize,
}

/// The levels, the root's first, each from left to right.
fn levels(store: &[u8], version: u32) -> Vec<Vec<Node>> {
    let mut levels: Vec<Vec<Node>> = Vec::new();
    let mut next: Vec<(usize, usize)> = page::root(store, version)
        .map(|root| (root, 0))
        .into_iter()
        .collect();
    while !next.is_empty() {
        let mut below = Vec::new();
        let mut nodes = Vec::new();
        for (place, (number, above)) in next.into_iter().enumerate() {
            let page = page::page(store, number);
            let live: Vec<_> = page.alive_at(version).collect();
            if page.level > LEAF {
                below.extend(live.iter().map(|router| (router.value as usize, place)));
            }
            nodes.push(Node {
                number,
                live: live.len(),
                level: page.level,
                above,
            });
        }
        levels.push(nodes);
        next = below;
    }
    levels
}

/// The middle of a box: the boxes of a level share its width.
fn middle(level: usize, place: usize, of: usize) -> (f64, f64) {
    let share = WIDTH / of as f64;
    (
        20.0 + share * (place as f64 + 0.5),
        60.0 + APART * level as f64,
    )
}

pub fn drawn(store: &[u8], version: u32) -> String {
    let levels = levels(store, version);
    let height = 60.0 + APART * (levels.len() - 1) as f64 + HIGH;
    let mut svg = Svg::new(
        WIDTH + 40.0,
        height,
        &format!("The pages of version {version}"),
    );
    for depth in 1..levels.len() {
        for (place, node) in levels[depth].iter().enumerate() {
            let from = middle(depth - 1, node.above, levels[depth - 1].len());
            let to = middle(depth, place, levels[depth].len());
            svg.line((from.0, from.1 + HIGH / 2.0), (to.0, to.1 - HIGH / 2.0));
        }
    }
    for (depth, nodes) in levels.iter().enumerate() {
        for (place, node) in nodes.iter().enumerate() {
            let centre = middle(depth, place, nodes.len());
            boxed(&mut svg, node, centre, WIDTH / nodes.len() as f64);
        }
    }
    svg.end()
}

/// A page, with its number and its count where there is room for them.
fn boxed(svg: &mut Svg, node: &Node, (x, y): (f64, f64), share: f64) {
    let Node {
        number,
        live,
        level,
        ..
    } = *node;
    let wide = (share * 0.9).min(60.0);
    let told = format!("page {number}: level {level}, {live} entries alive");
    svg.rect(
        (x - wide / 2.0, y - HIGH / 2.0),
        (wide, HIGH),
        colour(number),
        told,
    );
    if wide >= 7.0 * number.to_string().len() as f64 + 2.0 {
        svg.text(x, y - 2.0, "middle", 11, number);
        svg.text(x, y + 11.0, "middle", 9, format!("({live})"));
    }
}

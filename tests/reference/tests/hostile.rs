//! Stores made to keep judging busy: shared children and many versions.

mod common;

use std::time::{Duration, Instant};

use common::build::*;
use common::*;
use reference::calls;
use reference::image::Image;
use reference::layout::{Page, Span, ALIVE};

/// Far above what judging takes on a slow machine, far below what a walk that
/// passes shared children again and again would take.
const PATIENCE: Duration = Duration::from_secs(20);

fn judged_in_time(bytes: &[u8], rule: u32) {
    let begun = Instant::now();
    assert_eq!(calls::check(bytes), (4, rule));
    let taken = begun.elapsed();
    println!("rule {rule}: {taken:?}");
    assert!(taken < PATIENCE, "{taken:?}");
}

fn router_page(level: u32, routers: impl Iterator<Item = (u32, u32)>) -> Page {
    let entries = routers.map(|(low, child)| entry(low, 2, ALIVE, child));
    Page::new(level, Span::alive_from(2), entries.collect())
}

/// A page a level, each with twenty routers to the next: twenty to the sixth
/// ways down.
#[test]
fn a_chain_of_shared_children() {
    for keys in 0..4 {
        let mut pages = vec![leaf(1, ALIVE, 0..keys)];
        for level in 2..=7 {
            let below = 5 + pages.len() as u32;
            pages.push(router_page(level, (0..20).map(|low| (low, below))));
        }
        let root = 5 + pages.len() as u32;
        judged_in_time(&image(2, false, &[(2, root)], pages).write(), 4);
    }
}

/// As many index pages as fit, all routers of the lowest to one leaf without
/// live entries: rule 4 has nothing against it at any version.
fn one_empty_leaf(index_pages: u32) -> Image {
    let empty = leaf(1, 2, 0..20);
    let empty = Page::new(1, Span::alive_from(1), empty.entries);
    let mut pages = vec![empty];
    let mut level: Vec<(u32, u32)> = (0..20 * index_pages).map(|low| (low, 6)).collect();
    for height in 2.. {
        let mut above = Vec::new();
        for routers in level.chunks(20) {
            pages.push(router_page(height, routers.iter().copied()));
            above.push((routers[0].0, 5 + pages.len() as u32));
        }
        level = above;
        if level.len() == 1 {
            break;
        }
    }
    image(2, false, &[(2, level[0].1)], pages)
}

#[test]
fn every_router_to_one_empty_leaf() {
    judged_in_time(&one_empty_leaf(3000).write(), 5);
}

/// The same with pages that no version reaches but that make it look at many
/// versions.
#[test]
fn every_router_to_one_empty_leaf_at_many_versions() {
    let mut image = one_empty_leaf(1000);
    image.header.current = 8000;
    for first in (2..8000).step_by(20) {
        let lives = (first..first + 20).map(|start| entry(start, start, start + 1, 0));
        let page = Page::new(1, Span::alive_from(1), lives.collect());
        image.pages.push(page);
    }
    image.header.current = 8100;
    judged_in_time(&image.write(), 5);
}

/// Nothing stops the walks early here: a sound store of many pages and
/// versions.
#[test]
fn a_sound_store_of_many_versions() {
    let built = many_versions();
    let begun = Instant::now();
    assert_sound(&built);
    println!("sound: {:?}", begun.elapsed());
    assert!(begun.elapsed() < PATIENCE);
}

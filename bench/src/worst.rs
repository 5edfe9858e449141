//! Stores made to keep check busy that break a rule, so that it is named by the walk.

use std::hint::black_box;

use hostile::stores::walked::{broken_at_last, following, moving};
use hostile::stores::with_stray;
use reference::layout::PAGE_BYTES;

use crate::{judged, proved, shape};
use hostile::measure::{in_turn, once, told};

/// The reference program goes version by version, and judges only stores with
/// fewer pages.
const SMALL: usize = 200;

pub fn worst() {
    println!("## The worst stores\n");
    println!("| shape | pages | versions | broken rule | proved | reference |");
    println!("|---|---|---|---|---|---|");
    for leaves in [40, 160, 640, 3870] {
        for rule in [4, 5, 6] {
            line("flickering leaves", rule, &broken_at_last(leaves, rule));
        }
    }
    for leaves in [64, 256, 1024, 3200] {
        line("moving routers", 6, &with_stray(&moving(leaves)));
    }
    for size in [50, 100, 400, 800, 1900] {
        line("pages that follow each other", 5, &following(size, size));
    }
    println!();
}

fn line(name: &str, rule: u32, store: &[u8]) {
    let (_, turning) = shape(store);
    let pages = store.len() / PAGE_BYTES;
    let mut check = || {
        let verdict = proved::check(black_box(store));
        assert_eq!(verdict, (4, rule));
        verdict.0.into()
    };
    let mut taken = once(&mut check);
    if taken < 1.0 {
        taken = in_turn(&mut [&mut check]).of(0);
    }
    let reference = match pages < SMALL {
        true => told(judged(store, (4, rule)).of(1)),
        false => "not run".to_string(),
    };
    let taken = told(taken);
    println!("| {name} | {pages} | {turning} | {rule} | {taken} | {reference} |");
}

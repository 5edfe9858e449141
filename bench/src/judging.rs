//! Sound or not, and nothing more: a commit on a store where no update is open
//! judges, and is refused by number 7 right after.

use std::hint::black_box;

use hostile::judge;
use hostile::quick::read::{Fields, Loads};
use hostile::stores;
use hostile::stores::crowd::{crowd, Crowd};
use hostile::stores::shared::{self, Shape, ROOTS};
use reference::damage::kinds;
use reference::foreign::raise_current;
use reference::layout::{HIGHEST_VERSION, PAGE_BYTES};
use reference::rng::Rng;
use reference::samples::sound_store;
use reference::{calls, number};

use crate::{proved, shape};
use hostile::measure::{in_turn, times, told, Times};

/// Judged by the proved library, and by the same algorithm in Rust: entries by
/// two loads, and each field by itself.
fn judged(store: &[u8]) -> Times {
    let verdict = judge::number::<Loads>(store);
    assert_eq!(judge::number::<Fields>(store), verdict);
    let mut lent = store.to_vec();
    let sound = verdict == number::DONE;
    let refused = if sound { number::NONE_OPEN } else { verdict };
    assert_eq!(proved::commit(&mut lent), refused);
    in_turn(&mut [
        &mut || proved::commit(black_box(&mut lent)).into(),
        &mut || judge::number::<Loads>(black_box(store)).into(),
        &mut || judge::number::<Fields>(black_box(store)).into(),
    ])
}

fn row(name: &str, store: &[u8]) {
    let (used, turning) = shape(store);
    let taken = judged(store);
    println!(
        "| {name} | {} | {used} | {turning} | {} | {} | {} | {} | {} |",
        store.len() / PAGE_BYTES,
        times(taken.ratio(0, 1)),
        times(taken.ratio(0, 2)),
        told(taken.of(0)),
        told(taken.of(1)),
        told(taken.of(2))
    );
}

/// The programs in Rust answer as the reference program does, on sound stores
/// and on damaged ones.
fn same_verdicts() {
    for seed in 0..60 {
        let sound = sound_store(seed);
        for kind in kinds() {
            let mut store = sound.clone();
            kind.make(&mut store, &mut Rng::new(seed));
            let (verdict, _) = calls::check(&store);
            assert_eq!(judge::number::<Loads>(&store), verdict, "{}", kind.name);
            assert_eq!(judge::number::<Fields>(&store), verdict, "{}", kind.name);
        }
    }
}

pub fn judging() {
    same_verdicts();
    println!("## Judging\n");
    println!("Times as long as the same algorithm in Rust, with entries read by two loads and with each field read by itself.\n");
    println!("| store | pages | in use | versions with a change | two loads | by fields | proved | two loads | by fields |");
    println!("|---|---|---|---|---|---|---|---|---|");
    for pages in [16, 256, 4096] {
        for versions in [2, 32, 1024] {
            let name = format!("a history of {versions} versions");
            row(&name, &stores::grown(pages, versions));
        }
    }
    hostile_rows();
    println!();
    growth();
}

fn hostile_rows() {
    row(
        "each leaf with sixteen lives of one key",
        &stores::flickering(3870),
    );
    row("each leaf cut to pieces", &stores::cut_leaves(3870));
    row(
        "255 roots over two leaves, routers cut to pieces",
        &shared::cut_roots(ROOTS),
    );
    shared_rows();
    let name = "100 pages over the same twenty at the same versions (unsound)";
    let numbers = Crowd {
        crowd: 100,
        shared: 20,
        lives: 17,
    };
    row(name, &crowd(numbers).expect("room"));
}

/// Pages that many others lead to, in turn.
fn shared_rows() {
    let shape = |shared_level, shared, lives, wide| Shape {
        shared_level,
        shared,
        lives,
        wide,
        roots: ROOTS,
    };
    for (name, shape) in [
        (
            "255 roots and 3,825 pages below them over four leaves, all cut to pieces",
            shape(1, 4, 5, 4),
        ),
        (
            "as many pages as fit over the same twenty leaves",
            shape(1, 20, 1, 4),
        ),
        (
            "as many pages as fit over the same five pages of level 3",
            shape(3, 5, 4, 15),
        ),
    ] {
        row(name, &shared::in_turn(shape).expect("room"));
    }
}

/// Two stores judged in turn, by the proved library and then in Rust.
fn beside(name: &str, one: &[u8], other: &[u8]) {
    let (mut lent, mut other_lent) = (one.to_vec(), other.to_vec());
    let taken = in_turn(&mut [
        &mut || proved::commit(black_box(&mut lent)).into(),
        &mut || proved::commit(black_box(&mut other_lent)).into(),
        &mut || judge::number::<Loads>(black_box(one)).into(),
        &mut || judge::number::<Loads>(black_box(other)).into(),
    ]);
    println!(
        "| {name} | {} | {} | {} | {} |",
        times(taken.ratio(0, 1)),
        times(taken.ratio(2, 3)),
        told(taken.of(0)),
        told(taken.of(1))
    );
}

fn growth() {
    println!("| one store beside another | proved | in Rust | one | the other |");
    println!("|---|---|---|---|---|");
    for versions in [2, 32, 1024] {
        let name = format!("4,096 pages beside 256, {versions} versions");
        let store = |pages| stores::grown(pages, versions);
        beside(&name, &store(4096), &store(256));
    }
    let store = stores::grown(256, 32);
    let mut later = store.clone();
    raise_current(&mut later, HIGHEST_VERSION - 1);
    let name = "256 pages, 32 versions, a million empty commits beside none";
    beside(name, &later, &store);
    println!();
}

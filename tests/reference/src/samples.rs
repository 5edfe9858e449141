//! Sound stores of many shapes, each named by a seed.

use crate::edition::{Edition, FIRST, SECOND};
use crate::engine::{apply, Call};
use crate::foreign::{raise_current, unsettle};
use crate::history::{calls_of, History, Kind, KINDS};
use crate::layout::{FIRST_BENCH_KEY, HIGHEST_KEY, HIGHEST_VERSION};
use crate::rng::Rng;
use crate::tall::{tall_of, Fill, Spine};
use crate::{pruned, store, unjudged};

/// A sound store of edition 1: fresh or grown, closed or with an update open, made by a
/// history or foreign, with bench keys, near the last version, or tall. It has
/// at most 96 pages.
pub fn sound_store(seed: u64) -> Vec<u8> {
    sound_store_of(&FIRST, seed)
}

/// The same of edition 2; a tall one may have 200 pages.
pub fn second_store(seed: u64) -> Vec<u8> {
    sound_store_of(&SECOND, seed)
}

pub fn sound_store_of(edition: &'static Edition, seed: u64) -> Vec<u8> {
    let mut rng = Rng::new(seed);
    if seed.is_multiple_of(16) {
        if let Some(store) = some_tall_store(edition, &mut rng) {
            return store;
        }
    }
    let kind = match seed % 8 {
        7 => Kind::NewRoots,
        6 => Kind::HotPage,
        5 => Kind::GrowThenShrink,
        _ => Kind::Mixed,
    };
    let pages = rng.between(6, 65) as usize;
    let count = rng.between(1, 400) as usize;
    let (_, mut bytes) = calls_of(edition, seed, kind, pages, count);
    for _ in 0..rng.below(4) {
        unsettle(&mut bytes, &mut rng);
    }
    if store::header(&bytes).oldest > 0 {
        for _ in 0..rng.below(6) {
            pruned::unsettle(&mut bytes, &mut rng);
        }
    }
    if rng.once_in(3) {
        insert_bench_keys(&mut bytes, &mut rng);
    }
    if rng.once_in(24) {
        raise_current(&mut bytes, HIGHEST_VERSION - 1);
    }
    bytes
}

/// A sound store of edition 2 whose oldest version is above 0: pruned once or
/// more often, freed pages used again, with ended routers, closed or with an
/// update open. Every second one is foreign around what has ended.
pub fn pruned_store(seed: u64) -> Vec<u8> {
    let mut rng = Rng::new(seed ^ 0x12);
    let pages = rng.between(12, 60) as usize;
    let kind = KINDS[seed as usize % KINDS.len()];
    // Of these every one prunes.
    let prunes = seed / 8 * 16 + 8 + seed % 8;
    let mut history = History::of(&SECOND, prunes, kind, pages);
    let mut bytes = vec![0; SECOND.page_bytes * pages];
    run_until_pruned(&mut history, &mut bytes, &mut rng);
    for _ in 0..rng.below(80) {
        run_one(&mut history, None, &mut bytes);
    }
    if rng.once_in(2) {
        let close = *rng
            .pick(&[Call::Abandon, Call::Commit])
            .unwrap_or(&Call::Abandon);
        run_one(&mut history, Some(close), &mut bytes);
    }
    if seed % 2 == 1 && store::header(&bytes).oldest > 0 {
        for _ in 0..rng.below(5) {
            unsettle(&mut bytes, &mut rng);
        }
        for _ in 0..rng.between(1, 8) {
            pruned::unsettle(&mut bytes, &mut rng);
        }
    }
    match store::header(&bytes).oldest {
        // It was made fresh again behind the prune.
        0 => pruned_store(seed + 0x1000),
        _ => bytes,
    }
}

/// Goes on, and prunes to some version of the younger half, until one is the oldest.
fn run_until_pruned(history: &mut History, bytes: &mut [u8], rng: &mut Rng) {
    while store::header(bytes).oldest == 0 {
        for _ in 0..rng.between(150, 700) {
            run_one(history, None, bytes);
        }
        if history.model().is_open() {
            run_one(history, Some(Call::Abandon), bytes);
        }
        let (oldest, current) = (history.model().oldest, history.model().current);
        let version = rng.between(oldest.max(current / 2), current);
        run_one(history, Some(Call::Prune(version)), bytes);
    }
}

fn run_one(history: &mut History, call: Option<Call>, bytes: &mut [u8]) {
    let call = call.unwrap_or_else(|| history.next_call());
    let mut list = vec![0; call.list_length()];
    let answer = apply(call, bytes, &mut list);
    history.observe(call, &answer);
}

/// Bench keys in the open update, as they went in before 2026-06.
fn insert_bench_keys(store: &mut [u8], rng: &mut Rng) {
    for _ in 0..rng.between(1, 30) {
        let key = match rng.below(4) {
            0 => FIRST_BENCH_KEY,
            1 => HIGHEST_KEY,
            _ => rng.between(FIRST_BENCH_KEY, HIGHEST_KEY),
        };
        unjudged::raw_insert(store, key, rng.word());
    }
}

fn some_tall_store(edition: &'static Edition, rng: &mut Rng) -> Option<Vec<u8>> {
    let spines = [Spine::First, Spine::Middle, Spine::Last];
    let spine = *rng.pick(&spines)?;
    let (fewest, full) = (edition.fewest_live as u32, edition.most_entries as u32);
    let mut fill = || {
        let live = rng.between(fewest, 2 * fewest);
        Fill::new(live as usize, rng.between(0, full - live) as usize)
    };
    let fills = [fill(), fill(), Fill::new(2, 6)];
    let free = rng.below(12) as usize;
    tall_of(edition, &fills, spine, free).map(|built| built.store)
}

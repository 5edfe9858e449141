//! Sound stores that no history makes are served like any other.

mod common;

use std::collections::BTreeMap;

use common::follow::follow;
use common::*;
use reference::calls;
use reference::foreign::{raise_current, unsettle, CHANGES};
use reference::history::{self, History, KINDS};
use reference::layout::HIGHEST_VERSION;
use reference::model::Model;
use reference::rng::Rng;
use reference::store;

/// A store from a history, with foreign changes made in some of its versions.
/// It is left with an update open.
fn foreign_store(seed: u64, pages: usize, made: &mut BTreeMap<&str, u64>) -> Vec<u8> {
    let mut rng = Rng::new(seed);
    let (_, mut bytes) = history::calls(seed, KINDS[seed as usize % 3], pages, 120);
    for _ in 0..rng.between(1, 6) {
        if !store::header(&bytes).open {
            open(&mut bytes);
        }
        for _ in 0..4 {
            if let Some(name) = unsettle(&mut bytes, &mut rng) {
                *made.entry(name).or_default() += 1;
                assert_eq!(calls::check(&bytes), (0, 0), "{name}, seed {seed}");
            }
        }
        if rng.once_in(3) {
            commit_as_before(&mut bytes);
            open(&mut bytes);
        }
        let mut history = History::on_store(seed, KINDS[0], pages, Model::of_store(&bytes));
        bytes = follow(&mut history, bytes, 20).store;
    }
    bytes
}

#[test]
fn histories_go_on_from_foreign_stores() {
    let mut made = BTreeMap::new();
    for seed in 0..rounds(300) {
        let pages = 16 + (seed as usize * 11) % 80;
        let bytes = foreign_store(seed, pages, &mut made);
        let model = Model::of_store(&bytes);
        let mut history = History::on_store(seed, KINDS[seed as usize % 3], pages, model);
        follow(&mut history, bytes, 60);
    }
    println!("{made:?}");
    for (name, _) in CHANGES {
        assert!(made[name] > 30, "{name}: {made:?}");
    }
}

/// Demand 3 with foreign changes in the update: they too are made at the open
/// version, so abandon takes them back.
#[test]
fn abandon_takes_back_foreign_changes() {
    let mut made = BTreeMap::new();
    for seed in 0..rounds(200) {
        let mut rng = Rng::new(seed);
        let mut bytes = foreign_store(seed, 64, &mut made);
        if store::header(&bytes).open {
            commit_as_before(&mut bytes);
        }
        let before = bytes.clone();
        open(&mut bytes);
        for _ in 0..6 {
            unsettle(&mut bytes, &mut rng);
        }
        abandon(&mut bytes);
        assert_eq!(bytes, before, "seed {seed}");
    }
}

#[test]
fn versions_run_out() {
    for seed in 0..40 {
        let (_, mut bytes) = history::calls(seed, KINDS[seed as usize % 4], 40, 100);
        raise_current(&mut bytes, HIGHEST_VERSION - 1);
        assert_sound(&bytes);
        let mut history = History::on_store(seed, KINDS[0], 40, Model::of_store(&bytes));
        let followed = follow(&mut history, bytes, 60);
        let mut bytes = followed.store;
        if store::header(&bytes).open {
            commit_as_before(&mut bytes);
        }
        raise_current(&mut bytes, HIGHEST_VERSION);
        let before = bytes.clone();
        assert_eq!(calls::open(&mut bytes), 9);
        assert_eq!(calls::lookup(&bytes, 0, HIGHEST_VERSION + 1).0, 6);
        assert_eq!(bytes, before);
    }
}

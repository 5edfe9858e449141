//! Inserts and deletes beside the reference: histories with every kind of
//! split, merge, kill, root growth and shrinkage, and abandons in between.

mod common;

use common::met::Met;
use common::rounds;
use reference::foreign::unsettle;
use reference::history::{calls, History, Kind, KINDS};
use reference::rng::Rng;
use reference::samples::sound_store;
use reference::store;
use reference::tall::{tall, Fill, Spine};

#[test]
fn small_stores() {
    let mut met = Met::default();
    for seed in 0..rounds(400) {
        let pages = 6 + (seed as usize * 7) % 42;
        let mut history = History::new(seed, KINDS[seed as usize % 4], pages);
        met.run(&mut history, vec![seed as u8; pages * 256], 110);
    }
    println!("{met:?}");
    for number in [0, 5, 6, 7, 8, 10, 11, 12, 14] {
        assert!(met.given(number) > 10, "{number}: {met:?}");
    }
    for work in ["root grown", "root gone", "root copied", "freed", "killed"] {
        assert!(met.did(work) > 10, "{work}: {met:?}");
    }
    for number in [0, 6, 12] {
        assert!(met.returns.contains_key(&number), "{number}: {met:?}");
    }
}

#[test]
fn grown_to_level_three() {
    let mut met = Met::default();
    for seed in 0..rounds(1) {
        let mut history = History::new(seed, Kind::GrowThenShrink, 200);
        met.run(&mut history, vec![0; 200 * 256], 1100);
    }
    println!("{met:?}");
    assert!(met.highest_level >= 3, "{met:?}");
    for work in ["active page split", "page split", "page for page"] {
        assert!(met.did(work) > 0, "{work}: {met:?}");
    }
}

/// Roots of level 4 and above, from stores built so.
#[test]
fn from_tall_stores() {
    let mut met = Met::default();
    let spines = [Spine::First, Spine::Middle, Spine::Last];
    for (seed, spine) in (0..rounds(6)).zip(spines.into_iter().cycle()) {
        let mut fills = vec![Fill::new(10, 6); 4 + seed as usize % 2];
        let top = fills.len() - 1;
        fills[top] = Fill::new(2, 3);
        let built = tall(&fills, spine, 60).expect("fits");
        met.go_on(built.store, seed, Kind::Mixed, 60);
    }
    println!("{met:?}");
    assert!(met.highest_level >= 4, "{met:?}");
}

/// Stores lent from elsewhere: sound, and made by no history.
#[test]
fn from_foreign_stores() {
    let mut met = Met::default();
    for seed in 0..rounds(240) {
        let mut rng = Rng::new(seed);
        let mut bytes = sound_store(seed);
        for _ in 0..3 {
            bytes = met.go_on(bytes, seed, KINDS[seed as usize % 3], 20);
            if store::header(&bytes).open {
                for _ in 0..4 {
                    unsettle(&mut bytes, &mut rng);
                }
            }
        }
    }
    println!("{met:?}");
    let merges = ["pages merged", "pages merged and split", "page gone"];
    for work in merges {
        assert!(met.did(work) > 0, "{work}: {met:?}");
    }
}

/// Every byte before the open is there again after an abandon.
#[test]
fn abandon_restores_every_byte() {
    for seed in 0..rounds(60) {
        let (_, mut bytes) = calls(seed, KINDS[seed as usize % 4], 48, 150);
        if store::header(&bytes).open && host::commit(&mut bytes) == 15 {
            assert_eq!(host::abandon(&mut bytes), 0);
        }
        let before = bytes.clone();
        assert_eq!(host::open(&mut bytes), 0);
        let mut rng = Rng::new(seed);
        for _ in 0..40 {
            let key = rng.below(400);
            match host::insert(&mut bytes, key, rng.word()) {
                0 | 12 | 13 => {}
                number => {
                    assert_eq!(number, 10);
                    host::delete(&mut bytes, key);
                }
            }
        }
        assert_eq!(host::abandon(&mut bytes), 0);
        assert_eq!(bytes, before, "seed {seed}");
    }
}

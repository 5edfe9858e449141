//! The cases of `cases/convert.rs` by this program, which `tests/host` has made
//! by both programs, and its two ways to convert beside each other.

mod common;

#[path = "cases/convert.rs"]
mod convert;

use common::{commit_as_before, rounds};
use reference::calls;
use reference::convert::{by_turning_points, literally};
use reference::samples::sound_store;
use reference::store::header;

/// A version at which nothing changes is opened and committed: the current
/// version rises, and nothing else moves.
#[test]
fn versions_skipped_are_versions_replayed() {
    let (mut done, mut short) = (0, 0);
    for seed in 0..rounds(400) {
        let mut source = sound_store(seed);
        if header(&source).open {
            commit_as_before(&mut source);
        }
        if header(&source).current > 5000 {
            continue;
        }
        let pages = 6 + seed as usize % 40;
        let mut targets = [vec![0x11; pages * 512], vec![0xEE; pages * 512]];
        let number = literally(&source, &mut targets[0]);
        assert_eq!(by_turning_points(&source, &mut targets[1]), number);
        assert!(targets[0] == targets[1], "seed {seed}");
        done += u32::from(number == 0);
        short += u32::from(number == 12);
    }
    println!("{done} done, {short} short of pages");
    assert!(done > 100 && short > 20);
}

/// The same with runs of empty versions between those that change something.
#[test]
fn runs_of_empty_versions() {
    for run in [0, 1, 2, 500] {
        let mut source = common::fresh(16);
        for version in 0..6 {
            for _ in 0..run {
                common::open(&mut source);
                commit_as_before(&mut source);
            }
            common::open(&mut source);
            common::insert_all(&mut source, 8 * version..8 * version + 8);
            common::commit(&mut source);
        }
        for _ in 0..run {
            common::open(&mut source);
            commit_as_before(&mut source);
        }
        assert_eq!(header(&source).current, 6 + 7 * run);
        let mut targets = [vec![0x11; 16 * 512], vec![0xEE; 16 * 512]];
        assert_eq!(literally(&source, &mut targets[0]), 0);
        assert_eq!(by_turning_points(&source, &mut targets[1]), 0);
        assert!(targets[0] == targets[1], "{run}");
        assert_eq!(header(&targets[0]).current, 6 + 7 * run);
    }
}

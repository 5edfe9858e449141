//! The pages that a lookup visits (2026-13).

use std::collections::BTreeMap;

use crate::calls;
use crate::common::build::*;
use crate::common::*;
use reference::engine::Call;
use reference::history::{History, KINDS};
use reference::layout::HIGHEST_KEY;
use reference::rng::Rng;
use reference::tall::{tall, Fill, Spine};
use reference::{store, unjudged};

fn visited(bytes: &[u8], key: u32, version: u32) -> Vec<u32> {
    let mut pages = [0; 7];
    let (number, count) = calls::visits(bytes, key, version, &mut pages);
    assert_eq!(number, 0);
    assert!(pages[count as usize..].iter().all(|page| *page == 0));
    pages[..count as usize].to_vec()
}

/// P2: keys 1 to 21 in version 1, which is open.
fn p2() -> Vec<u8> {
    let mut bytes = fresh(16);
    open(&mut bytes);
    insert_all(&mut bytes, 1..=21);
    bytes
}

#[test]
fn the_root_alone_where_it_is_a_leaf() {
    let mut bytes = fresh(6);
    for key in [0, 1, HIGHEST_KEY] {
        assert_eq!(visited(&bytes, key, 0), [5]);
    }
    open(&mut bytes);
    assert_eq!(visited(&bytes, 3, 1), [5]);
}

#[test]
fn from_the_root_down_for_keys_that_are_there_and_that_are_not() {
    let bytes = p2();
    for (key, pages) in [
        (0, [8, 6]),
        (11, [8, 6]),
        (12, [8, 7]),
        (HIGHEST_KEY, [8, 7]),
    ] {
        assert_eq!(visited(&bytes, key, 1), pages);
    }
    assert_eq!(visited(&bytes, 11, 0), [5]);
}

#[test]
fn an_old_version_by_its_old_pages() {
    let mut bytes = p2();
    commit(&mut bytes);
    open(&mut bytes);
    delete_all(&mut bytes, 12..=18);
    assert_eq!(visited(&bytes, 15, 1), [8, 7]);
    assert_eq!(visited(&bytes, 15, 2), [9]);
    abandon(&mut bytes);
    assert_eq!(visited(&bytes, 15, 1), [8, 7]);
}

#[test]
fn seven_pages_at_most() {
    let mut fills = vec![Fill::new(4, 0); 7];
    fills[6] = Fill::new(2, 0);
    let built = tall(&fills, Spine::Middle, 0).unwrap();
    let pages = visited(&built.store, built.spine_keys[0], 1);
    let levels: Vec<u32> = pages
        .iter()
        .map(|n| store::level(&built.store, *n))
        .collect();
    assert_eq!(levels, [7, 6, 5, 4, 3, 2, 1]);
}

#[test]
fn a_list_one_number_short() {
    let bytes = p2();
    let mut pages = [9; 1];
    assert_eq!(calls::visits(&bytes, 12, 1, &mut pages), (14, 2));
    assert_eq!(pages, [9]);
    assert_eq!(calls::visits(&bytes, 12, 1, &mut []), (14, 2));
    let mut pages = [9; 3];
    assert_eq!(calls::visits(&bytes, 12, 1, &mut pages), (0, 2));
    assert_eq!(pages, [8, 7, 9]);
}

#[test]
fn refusals_as_a_range_has_them() {
    let bytes = p2();
    let mut pages = [9; 4];
    let mut refused = |bytes: &[u8], key, version| {
        let answer = calls::visits(bytes, key, version, &mut pages);
        assert_eq!((answer.1, pages), (0, [9; 4]));
        answer.0
    };
    assert_eq!(refused(&bytes, HIGHEST_KEY + 1, 1), 5);
    assert_eq!(refused(&bytes, HIGHEST_KEY + 1, 2), 5);
    assert_eq!(refused(&bytes, u32::MAX, u32::MAX), 5);
    assert_eq!(refused(&bytes, 0, 2), 6);
    assert_eq!(refused(&bytes[..6 * 256 - 1], u32::MAX, 9), 1);
    let damaged = |at: usize| {
        let mut bytes = bytes.clone();
        bytes[at] ^= 4;
        bytes
    };
    assert_eq!(refused(&damaged(3), u32::MAX, 9), 2);
    assert_eq!(refused(&damaged(4), u32::MAX, 9), 3);
    assert_eq!(refused(&damaged(100), u32::MAX, 9), 4);
    // A free page, far from the way.
    assert_eq!(refused(&damaged(15 * 256 + 100), 1, 1), 4);
}

#[test]
fn a_page_that_is_root_and_child() {
    let pages = vec![
        leaf(1, reference::layout::ALIVE, [10, 20, 30, 40]),
        leaf(2, reference::layout::ALIVE, [100, 110, 120, 130]),
        index(2, reference::layout::ALIVE, &[(0, 6), (100, 7)]),
    ];
    let bytes = image(2, false, &[(1, 6), (2, 8)], pages).write();
    assert_eq!(visited(&bytes, 10, 1), [6]);
    assert_eq!(visited(&bytes, 10, 2), [8, 6]);
    assert_eq!(visited(&bytes, 99, 2), [8, 6]);
    assert_eq!(visited(&bytes, 100, 2), [8, 7]);
}

/// What each committed version's lookups visited when it was committed.
#[derive(Default)]
struct Visited(BTreeMap<(u32, u32), Vec<u32>>);

impl Visited {
    fn note(&mut self, bytes: &[u8], rng: &mut Rng) {
        let current = store::header(bytes).current;
        for _ in 0..4 {
            let key = match rng.below(3) {
                0 => rng.below(HIGHEST_KEY + 1),
                _ => rng.below(400),
            };
            self.0.insert((current, key), visited(bytes, key, current));
        }
    }

    fn stay(&self, bytes: &[u8]) {
        for ((version, key), before) in &self.0 {
            let mut pages = [0; 7];
            let (number, count) = unjudged::visits(bytes, *key, *version, &mut pages);
            assert_eq!(number, 0);
            assert_eq!(pages[..count as usize], before[..], "{key} at {version}");
        }
    }
}

/// "The page numbers that a lookup visits, in order, are the same after any
/// later accepted calls."
#[test]
fn old_readings_by_the_same_pages() {
    let mut compared = 0;
    for seed in 0..rounds(24) {
        let mut rng = Rng::new(seed);
        let pages = 20 + 4 * seed as usize % 50;
        let mut history = History::new(seed, KINDS[seed as usize % 4], pages);
        let mut bytes = vec![0; 256 * pages];
        let mut visited = Visited::default();
        for _ in 0..250 {
            let call = history.next_call();
            let mut list = vec![0; call.list_length()];
            let answer = reference::engine::apply(call, &mut bytes, &mut list);
            history.observe(call, &answer);
            match (call, answer.number) {
                (Call::Fresh, _) => visited = Visited::default(),
                (Call::Commit, 0) => visited.note(&bytes, &mut rng),
                (Call::Insert(..) | Call::Delete(_) | Call::Abandon, 0) => visited.stay(&bytes),
                _ => {}
            }
        }
        compared += visited.0.len();
    }
    println!("{compared} ways compared");
    assert!(compared > 100);
}

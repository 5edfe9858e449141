//! Return to an earlier version (2026-07), by both programs.

#[path = "common/mod.rs"]
mod beside;

#[path = "../../reference/tests/common/mod.rs"]
mod common;

#[path = "../../reference/tests/cases/return_to.rs"]
mod return_to;

use beside::calls;
use beside::stores::{some_versions, stores};
use beside::{both, may_write, rounds};
use host::Proved;
use reference::beside::{compare, Tally};
use reference::engine::{Call, Reference};
use reference::history::{History, Kind, KINDS};
use reference::layout::HIGHEST_KEY;
use reference::model::Model;
use reference::rng::Rng;
use reference::tall::{tall, Fill, Spine};
use reference::{store, unjudged, walk};

/// What returns gave, how many settings they changed, and how many older
/// versions were read again behind them.
#[derive(Debug, Default)]
struct Gone {
    numbers: Tally,
    changed: u64,
    read: u64,
}

impl Gone {
    fn given(&self, number: u32) -> u64 {
        self.numbers.get(&number).copied().unwrap_or(0)
    }

    /// A return on a copy of the store, by both programs; then what is promised
    /// of it, by the library alone.
    fn back(&mut self, bytes: &[u8], version: u32, rng: &mut Rng) {
        let (answer, after) = both(Call::Return(version), bytes);
        *self.numbers.entry(answer.number).or_default() += 1;
        match answer.number {
            0 => self.done(bytes, &after, version, rng),
            12 | 13 => {
                let mut abandoned = bytes.to_vec();
                assert_eq!(host::abandon(&mut abandoned), 0);
                assert!(after == abandoned, "to {version}: {}", answer.number);
            }
            _ => assert!(after == bytes),
        }
    }

    /// The open version shows what `version` does, and each committed version
    /// what it did.
    fn done(&mut self, before: &[u8], after: &[u8], version: u32, rng: &mut Rng) {
        let header = store::header(before);
        assert_eq!(host::check(after), (0, 0));
        assert_eq!(store::header(after).last(), header.last());
        let shown = (listed(after, header.last()), listed(before, version));
        assert!(shown.0 == shown.1, "to {version}");
        let none = host::difference(after, version, header.last(), &mut []);
        assert_eq!(none, (0, 0));
        let differed = host::difference(before, version, header.last(), &mut []);
        self.changed += differed.1 as u64;
        for old in [version, header.current, rng.between(0, header.current)] {
            assert!(listed(after, old) == listed(before, old), "{old}");
            self.read += 1;
        }
        let mut abandoned = (before.to_vec(), after.to_vec());
        assert_eq!(host::abandon(&mut abandoned.0), 0);
        assert_eq!(host::abandon(&mut abandoned.1), 0);
        assert!(abandoned.0 == abandoned.1, "to {version}");
    }

    /// Runs `count` calls of `history` on both programs. Every few calls while
    /// an update is open, returns are tried; what the update had done is kept.
    fn follow(&mut self, history: &mut History, bytes: Vec<u8>, count: usize, every: u32) {
        let mut rng = Rng::new(count as u64);
        let (mut left, mut right) = (bytes.clone(), bytes);
        let mut opened: Option<Vec<u8>> = None;
        for at in 0..count {
            let call = history.next_call();
            let before = left.clone();
            let answer = compare(&mut Reference, &mut Proved, call, &mut left, &mut right)
                .unwrap_or_else(|difference| panic!("call {at}: {difference:?}"));
            history.observe(call, &answer);
            if let Call::Return(_) = call {
                *self.numbers.entry(answer.number).or_default() += 1;
            }
            match (call, answer.number) {
                (Call::Open, 0) => opened = Some(before),
                // A return that is stopped is the abandon: the bytes before the
                // opening.
                (Call::Abandon, 0) | (Call::Return(_), 12 | 13) => {
                    if let Some(opened) = opened.take() {
                        assert!(left == opened, "call {at}: {call:?}");
                    }
                }
                (_, number) => assert!(may_write(call, number) || left == before),
            }
            if history.model().is_open() && rng.once_in(every) {
                let current = history.model().current;
                let versions = [0, rng.between(0, current), current];
                let version = *rng.pick(&versions).unwrap_or(&0);
                self.back(&left, version, &mut rng);
            }
        }
    }
}

/// All settings of a version, by the library.
fn listed(bytes: &[u8], version: u32) -> Vec<u32> {
    let (_, count) = host::range(bytes, 0, HIGHEST_KEY, version, &mut []);
    let mut list = vec![0; 2 * count];
    assert_eq!(
        host::range(bytes, 0, HIGHEST_KEY, version, &mut list),
        (0, count)
    );
    list
}

#[test]
fn returns_on_bytes_of_every_kind() {
    let mut gone = Gone::default();
    for seed in 0..rounds(120) {
        let mut rng = Rng::new(seed);
        for (index, mut bytes) in stores(seed).into_iter().enumerate() {
            if index == 0 && rng.once_in(2) && unjudged::open(&mut bytes) == 0 {
                for _ in 0..rng.below(30) {
                    unjudged::insert(&mut bytes, rng.below(2000), rng.word());
                }
            }
            for version in some_versions(&bytes, &mut rng) {
                gone.back(&bytes, version, &mut rng);
            }
        }
    }
    println!("{gone:?}");
    for number in [0, 1, 2, 4, 6, 7, 12] {
        assert!(gone.given(number) > 0, "{number}: {gone:?}");
    }
    assert!(gone.changed > 1000, "{gone:?}");
}

#[test]
fn histories_with_returns() {
    let mut gone = Gone::default();
    for seed in 0..rounds(160) {
        let pages = 6 + (seed as usize * 7) % 42;
        let mut history = History::new(seed, KINDS[seed as usize % 4], pages);
        gone.follow(&mut history, vec![0xEE; pages * 256], 150, 12);
    }
    println!("{gone:?}");
    assert!(gone.given(0) > 500 && gone.given(12) > 60, "{gone:?}");
    assert!(gone.given(6) > 20, "{gone:?}");
}

#[test]
fn returns_on_large_and_on_tall_stores() {
    let mut gone = Gone::default();
    let mut history = History::new(1, Kind::GrowThenShrink, 256);
    let count = rounds(900) as usize;
    gone.follow(&mut history, vec![0xEE; 256 * 256], count, 60);
    let spines = [Spine::First, Spine::Middle, Spine::Last];
    for (seed, spine) in (0..rounds(6)).zip(spines.into_iter().cycle()) {
        let mut fills = vec![Fill::new(6, 12); 4 + seed as usize % 2];
        let top = fills.len() - 1;
        fills[top] = Fill::new(2, 15);
        let bytes = tall(&fills, spine, 150).expect("fits").store;
        let model = Model::of_store(&bytes);
        let pages = bytes.len() / 256;
        let mut history = History::on_store(seed, Kind::Mixed, pages, model);
        gone.follow(&mut history, bytes, 60, 8);
    }
    println!("{gone:?}");
    assert!(gone.given(0) > 20 && gone.changed > 2000, "{gone:?}");
}

/// A thousand settings and more in 4,096 pages, all of them changed: one
/// return, and its steps by the other program.
#[test]
fn a_whole_release_in_a_store_of_4096_pages() {
    let mut bytes = vec![0xEE; 4096 * 256];
    assert_eq!(calls::fresh(&mut bytes), 0);
    for (value, step) in [(1, 7), (2, 7), (3, 11)] {
        unjudged::open(&mut bytes);
        for key in walk::settings(&bytes, store::header(&bytes).last()).into_keys() {
            assert_eq!(unjudged::delete(&mut bytes, key), 0);
        }
        for key in 0..1500 {
            assert_eq!(unjudged::insert(&mut bytes, key * step, value), 0);
        }
        assert_eq!(unjudged::commit(&mut bytes), 0);
    }
    let closed = bytes.clone();
    assert_eq!(calls::open(&mut bytes), 0);
    for version in [1, 2, 0, 3] {
        assert_eq!(calls::return_to(&mut bytes, version), 0);
        assert!(listed(&bytes, 4) == listed(&closed, version));
    }
    assert_eq!(calls::commit(&mut bytes), 15);
    assert_eq!(calls::return_to(&mut bytes, 1), 0);
    assert_eq!(calls::commit(&mut bytes), 0);
    for version in 0..=3 {
        assert!(listed(&bytes, version) == listed(&closed, version));
    }
}

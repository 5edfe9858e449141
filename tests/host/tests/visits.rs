//! The pages that a lookup visits (2026-13), by both programs.

#[path = "common/mod.rs"]
mod beside;

#[path = "../../reference/tests/common/mod.rs"]
mod common;

#[path = "../../reference/tests/cases/visits.rs"]
mod visits;

use std::collections::BTreeMap;

use beside::calls;
use beside::stores::{some_keys, some_versions, stores};
use beside::{both, rounds};
use host::Proved;
use reference::engine::{Call, Engine};
use reference::history::{History, Kind, KINDS};
use reference::layout::{ALIVE, HIGHEST_KEY};
use reference::model::Model;
use reference::rng::Rng;
use reference::samples::sound_store;
use reference::tall::{tall, Fill, Spine};
use reference::{store, unjudged};

#[test]
fn every_way_on_bytes_of_every_kind() {
    let mut tally = BTreeMap::new();
    for seed in 0..rounds(40) {
        let mut rng = Rng::new(seed);
        for bytes in stores(seed) {
            let keys = some_keys(&bytes, &mut rng);
            for version in some_versions(&bytes, &mut rng) {
                let key = *rng.pick(&keys).unwrap_or(&0);
                let visits = Call::Visits(key, version, rng.below(9) as usize);
                let (answer, after) = both(visits, &bytes);
                assert_eq!(after, bytes);
                *tally.entry(answer.number).or_insert(0u64) += 1;
            }
        }
    }
    println!("numbers given, times: {tally:?}");
    for number in [0, 1, 2, 4, 5, 6, 14] {
        assert!(tally.contains_key(&number), "{number}: {tally:?}");
    }
}

/// The library's answer for the pages that a lookup visits; the independent
/// program goes the same way over the same bytes.
fn way(bytes: &[u8], key: u32, version: u32) -> Vec<u32> {
    let (mut pages, mut others) = ([0; 7], [0; 7]);
    let (number, count) = host::visits(bytes, key, version, &mut pages);
    let other = unjudged::visits(bytes, key, version, &mut others);
    assert_eq!((number, count as u32), other, "{key} at {version}");
    assert_eq!(pages, others, "{key} at {version}");
    assert_eq!(number, 0, "{key} at {version}");
    pages[..count].to_vec()
}

/// The ways of committed versions, as the library told them when each version
/// was the current one.
#[derive(Default)]
struct Noted {
    ways: Vec<(u32, u32, Vec<u32>)>,
    keys: Vec<u32>,
    versions: u64,
    abandons: u64,
    /// How often a way was asked for again, and how many pages the longest has.
    asked: u64,
    longest: usize,
    /// Ways by a page that has ended since, asked for at the end of a history.
    ended: u64,
}

impl Noted {
    fn note(&mut self, bytes: &[u8], version: u32, rng: &mut Rng) {
        self.versions += 1;
        let any = [0, HIGHEST_KEY, rng.below(HIGHEST_KEY + 1)];
        let known = [0, 1, 2].map(|_| rng.pick(&self.keys).copied().unwrap_or(1));
        for key in any.into_iter().chain(known) {
            let pages = way(bytes, key, version);
            self.longest = self.longest.max(pages.len());
            self.ways.push((version, key, pages));
        }
    }

    /// So many of the ways, or all of them, are as they were told.
    fn stay(&mut self, bytes: &[u8], count: usize, rng: &mut Rng) {
        let all = count >= self.ways.len();
        for index in 0..count.min(self.ways.len()) {
            let index = match all {
                true => index,
                false => rng.below(self.ways.len() as u32) as usize,
            };
            let (version, key, before) = &self.ways[index];
            assert_eq!(&way(bytes, *key, *version), before, "{key} at {version}");
            self.asked += 1;
        }
    }

    /// `count` calls of `history`, made by the library: each version's ways are
    /// noted as it is committed, and after each later call that changes the
    /// store some `asked` of all that were noted are asked for again.
    fn follow(&mut self, history: &mut History, bytes: &mut [u8], count: usize, asked: usize) {
        let mut rng = Rng::new(count as u64);
        for _ in 0..count {
            let call = history.next_call();
            let mut list = vec![0; call.list_length()];
            let answer = Proved.apply(call, bytes, &mut list);
            history.observe(call, &answer);
            match (call, answer.number) {
                (Call::Fresh, _) => {
                    self.ways.clear();
                    self.note(bytes, 0, &mut rng);
                }
                (Call::Insert(key, _), 0) => self.keys.push(key),
                (Call::Open | Call::Delete(_), 0) => {}
                (Call::Abandon, 0) => self.abandons += 1,
                (Call::Commit, 0) => self.note(bytes, store::header(bytes).current, &mut rng),
                _ => continue,
            }
            self.stay(bytes, asked, &mut rng);
        }
        self.stay(bytes, usize::MAX, &mut rng);
        let has_ended = |page: &u32| store::page(bytes, *page).span.end != ALIVE;
        let ended = self.ways.iter().filter(|way| way.2.iter().any(has_ended));
        self.ended += ended.count() as u64;
    }

    fn add(&mut self, other: Noted) {
        self.versions += other.versions;
        self.abandons += other.abandons;
        self.asked += other.asked;
        self.longest = self.longest.max(other.longest);
        self.ended += other.ended;
    }

    fn tell(&self, versions: u64, longest: usize) {
        let (asked, ended) = (self.asked, self.ended);
        println!("{} versions, {} abandons", self.versions, self.abandons);
        println!("{asked} ways asked for again, up to {} pages", self.longest);
        println!("{ended} by pages that have ended since");
        assert!(self.versions >= versions && self.abandons > 0);
        assert!(asked >= 20 * versions && ended >= versions && self.longest >= longest);
    }
}

/// The committed versions of a store from elsewhere: some, and the newest.
fn noted_so_far(bytes: &[u8], rng: &mut Rng) -> Noted {
    let current = store::header(bytes).current;
    let mut noted = Noted {
        keys: some_keys(bytes, rng),
        ..Noted::default()
    };
    noted.keys.retain(|key| *key <= HIGHEST_KEY);
    for version in [0, rng.between(0, current), current] {
        noted.note(bytes, version, rng);
    }
    noted
}

/// "The page numbers that a lookup visits, in order, are the same after any
/// later accepted calls", told by the library.
#[test]
fn committed_ways_stay_in_histories() {
    let mut met = Noted::default();
    for seed in 0..rounds(48) {
        let pages = 12 + (seed as usize * 11) % 90;
        let mut history = History::new(seed, KINDS[seed as usize % 4], pages);
        let mut noted = Noted::default();
        noted.follow(&mut history, &mut vec![0xEE; pages * 256], 250, 12);
        met.add(noted);
    }
    met.tell(500, 2);
}

#[test]
fn committed_ways_stay_on_large_stores() {
    let mut met = Noted::default();
    for (seed, pages, count) in [(1, 256, 1200), (2, 256, 1200), (3, 4096, 500)] {
        for kind in [Kind::GrowThenShrink, Kind::HotPage] {
            let mut history = History::new(seed, kind, pages);
            let mut noted = Noted::default();
            let count = rounds(count) as usize;
            noted.follow(&mut history, &mut vec![0xEE; pages * 256], count, 3);
            met.add(noted);
        }
    }
    met.tell(150, 3);
}

/// Roots of level 4 to 6, which splits and merges below and beside the noted
/// ways reach.
#[test]
fn committed_ways_stay_on_tall_stores() {
    let mut met = Noted::default();
    let spines = [Spine::First, Spine::Middle, Spine::Last];
    for (seed, spine) in (0..rounds(9)).zip(spines.into_iter().cycle()) {
        let mut rng = Rng::new(seed);
        let mut fills = vec![Fill::new(6, 12); 4 + seed as usize % 3];
        let top = fills.len() - 1;
        fills[top] = Fill::new(2, 15);
        let mut bytes = tall(&fills, spine, 80).expect("fits").store;
        let mut noted = noted_so_far(&bytes, &mut rng);
        let model = Model::of_store(&bytes);
        let pages = bytes.len() / 256;
        let mut history = History::on_store(seed, KINDS[seed as usize % 3], pages, model);
        noted.follow(&mut history, &mut bytes, 160, 3);
        met.add(noted);
    }
    met.tell(60, 6);
}

#[test]
fn committed_ways_stay_on_stores_from_elsewhere() {
    let mut met = Noted::default();
    for seed in 0..rounds(120) {
        let mut bytes = sound_store(seed);
        let mut noted = noted_so_far(&bytes, &mut Rng::new(seed));
        let (model, pages) = (Model::of_store(&bytes), bytes.len() / 256);
        let mut history = History::on_store(seed, KINDS[seed as usize % 4], pages, model);
        noted.follow(&mut history, &mut bytes, 40, 8);
        met.add(noted);
    }
    met.tell(400, 3);
}

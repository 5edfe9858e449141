//! A history run on both programs, and what the page rules had to do in it.

use std::collections::BTreeMap;

use super::may_write;
use host::Proved;
use reference::beside::{compare, Tally};
use reference::edition::Edition;
use reference::engine::{Answer, Call, Reference};
use reference::history::{History, Kind};
use reference::layout::ALIVE;
use reference::model::Model;
use reference::{store, walk};

/// How often each number was given, and how often an accepted insert or delete
/// did what each name says.
#[derive(Debug, Default)]
pub struct Met {
    pub numbers: Tally,
    /// Those of returns alone, and of prunes.
    pub returns: Tally,
    pub prunes: Tally,
    pub works: BTreeMap<&'static str, u64>,
    pub highest_level: u32,
}

impl Met {
    pub fn given(&self, number: u32) -> u64 {
        self.numbers.get(&number).copied().unwrap_or(0)
    }

    pub fn did(&self, work: &str) -> u64 {
        self.works.get(work).copied().unwrap_or(0)
    }

    /// Pages were split, merged and copied, and a root grew.
    pub fn rebuilt(&self) {
        for work in ["page split", "pages merged", "root grown", "page for page"] {
            assert!(self.did(work) > 0, "{work}: {self:?}");
        }
    }

    /// Runs `count` calls of a history that goes on from `bytes`; the store at the
    /// end.
    pub fn go_on(&mut self, bytes: Vec<u8>, seed: u64, kind: Kind, count: usize) -> Vec<u8> {
        let pages = store::page_count(&bytes) as usize;
        let model = Model::of_store(&bytes);
        let mut history = History::on_store_of(Edition::of(&bytes), seed, kind, pages, model);
        self.run(&mut history, bytes, count)
    }

    /// Runs `count` calls of `history` from `bytes` on; the store at the end.
    pub fn run(&mut self, history: &mut History, bytes: Vec<u8>, count: usize) -> Vec<u8> {
        let (mut left, mut right) = (bytes.clone(), bytes);
        for _ in 0..count {
            let call = history.next_call();
            let answer = self.call(call, &mut left, &mut right);
            history.observe(call, &answer);
        }
        left
    }

    /// One call, on a store of each program.
    pub fn call(&mut self, call: Call, left: &mut [u8], right: &mut [u8]) -> Answer {
        let before = left.to_vec();
        let answer = compare(&mut Reference, &mut Proved, call, left, right)
            .unwrap_or_else(|difference| panic!("{call:?}: {difference:?}"));
        *self.numbers.entry(answer.number).or_default() += 1;
        let untouched = !may_write(call, answer.number);
        assert!(!untouched || left == before, "{call:?}");
        match call {
            Call::Return(_) => *self.returns.entry(answer.number).or_default() += 1,
            Call::Prune(_) => *self.prunes.entry(answer.number).or_default() += 1,
            _ => {}
        }
        if answer.number == 0 && matches!(call, Call::Insert(..) | Call::Delete(_)) {
            self.observe(&before, left);
        }
        answer
    }

    fn work(&mut self, name: &'static str, times: u64) {
        *self.works.entry(name).or_default() += times;
    }

    fn observe(&mut self, before: &[u8], after: &[u8]) {
        let version = store::header(after).last();
        let (old, new) = (walk::root(before, version), walk::root(after, version));
        let (from, to) = (store::level(before, old), store::level(after, new));
        self.highest_level = self.highest_level.max(to);
        let root = match to.cmp(&from) {
            std::cmp::Ordering::Greater => "root grown",
            std::cmp::Ordering::Less => "root gone",
            _ if new != old => "root copied",
            _ => "root stays",
        };
        self.work(root, 1);
        for level in self.levels(before, after, new).into_values() {
            self.level(level);
        }
    }

    /// For each level, how many pages were freed, killed and taken, and of those how
    /// many with 8 entries.
    fn levels(&mut self, before: &[u8], after: &[u8], root: u32) -> BTreeMap<u32, [u32; 4]> {
        let version = store::header(after).last();
        let mut levels: BTreeMap<u32, [u32; 4]> = BTreeMap::new();
        for number in store::page_numbers(before) {
            let (one, other) = (store::page(before, number), store::page(after, number));
            let freed = !one.is_free() && other.is_free();
            let killed = one.span.end == ALIVE && !one.is_free() && other.span.end == version;
            let taken = one.is_free() && !other.is_free();
            if !one.is_free() && other.level > one.level {
                self.work("freed and taken above", 1);
            }
            let level = levels.entry(one.level.max(other.level)).or_default();
            let eight = taken && number != root && other.entries.len() == 8;
            for (count, met) in level.iter_mut().zip([freed, killed, taken, eight]) {
                *count += u32::from(met);
            }
        }
        levels
    }

    /// What was done on one level.
    fn level(&mut self, [freed, killed, taken, eight]: [u32; 4]) {
        if (freed + killed, taken, eight) == (1, 1, 1) {
            self.work("8 alone", 1);
        }
        for (name, count) in [("freed", freed), ("killed", killed), ("taken", taken)] {
            self.work(name, u64::from(count));
        }
        // Reading 19.
        assert!(freed == 0 || taken == 0, "a level both frees and takes");
        let name = match (freed + killed, taken) {
            (0, 0) => return,
            (0, 1) => "active page split",
            (1, 0) => "page gone",
            (1, 1) => "page for page",
            (1, 2) => "page split",
            (2, 1) => "pages merged",
            (2, 2) => "pages merged and split",
            _ => "other",
        };
        self.work(name, 1);
    }
}

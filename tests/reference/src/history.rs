//! Histories from a seed: calls with arguments, good and bad.
//!
//! A history is told each answer, so that it knows which keys are alive and
//! how long a list must be, and can be driven by any program that answers.

use crate::edition::{Edition, FIRST};
use crate::engine::{Answer, Call, Engine, Reference};
use crate::layout::{FIRST_BENCH_KEY, HIGHEST_KEY};
use crate::model::Model;
use crate::number;
use crate::rng::Rng;

/// What a history is made to provoke.
#[derive(Clone, Copy, Debug, PartialEq, Eq)]
pub enum Kind {
    /// Inserts and deletes over all keys it has.
    Mixed,
    /// Many inserts, then many deletes, and again: splits up to new roots,
    /// merges down to roots that go.
    GrowThenShrink,
    /// Few keys and many updates of each version, or many versions: pages
    /// that overflow by their dead entries.
    HotPage,
    /// Each version has a new root, so that slots run out before pages do.
    NewRoots,
}

pub const KINDS: [Kind; 4] = [
    Kind::Mixed,
    Kind::GrowThenShrink,
    Kind::HotPage,
    Kind::NewRoots,
];

/// In which order a history grows.
#[derive(Clone, Copy, Debug)]
enum Order {
    Rising,
    Falling,
    Scattered,
}

pub struct History {
    edition: &'static Edition,
    kind: Kind,
    rng: Rng,
    model: Model,
    /// The keys it inserts, rising.
    keys: Vec<u32>,
    order: Order,
    growing: bool,
    /// Updates still to be made before the open update is closed.
    left: u32,
    /// One in this many closings is an abandon.
    abandons: u32,
    /// Whether it goes back to earlier versions. That undoes what has grown, so
    /// only half of the histories do.
    returns: bool,
    /// Whether it prunes: half of edition 2's do, and an eighth of edition 1's,
    /// where that is refused.
    prunes: bool,
    /// Refusals for lack of a page or slot since the last fresh store.
    stuck: u32,
    begun: bool,
    /// Whether it asked for the state when it last asked how the store is.
    told: bool,
}

impl History {
    /// The history named by `seed` for a store of `pages` pages of edition 1.
    /// It begins with making the store fresh.
    pub fn new(seed: u64, kind: Kind, pages: usize) -> History {
        History::of(&FIRST, seed, kind, pages)
    }

    /// The same of any edition.
    pub fn of(edition: &'static Edition, seed: u64, kind: Kind, pages: usize) -> History {
        let model = Model::fresh_of(edition);
        let history = History::on_store_of(edition, seed, kind, pages, model);
        History {
            begun: false,
            ..history
        }
    }

    /// A history that goes on from a store of edition 1 with these settings.
    pub fn on_store(seed: u64, kind: Kind, pages: usize, model: Model) -> History {
        History::on_store_of(&FIRST, seed, kind, pages, model)
    }

    /// The same of any edition. The larger its pages, the more keys it wants.
    pub fn on_store_of(
        edition: &'static Edition,
        seed: u64,
        kind: Kind,
        pages: usize,
        model: Model,
    ) -> History {
        let mut rng = Rng::new(seed);
        let full = edition.most_entries as u32;
        let count = match kind {
            Kind::NewRoots => edition.most_gathered as u32,
            Kind::HotPage => rng.between(6, 2 * full),
            _ => rng.between(full, full + full * 3 / 10 * pages as u32),
        };
        let order = *rng
            .pick(&[Order::Rising, Order::Falling, Order::Scattered])
            .unwrap_or(&Order::Scattered);
        History {
            edition,
            kind,
            keys: some_keys(&mut rng, count),
            order,
            growing: true,
            left: 0,
            abandons: rng.between(2, 12),
            returns: seed / 4 % 2 == 1,
            prunes: match edition == &FIRST {
                true => seed / 8 % 8 == 7,
                false => seed / 8 % 2 == 1,
            },
            stuck: 0,
            begun: true,
            told: false,
            model,
            rng,
        }
    }

    /// What the settings are, as the answers so far say.
    pub fn model(&self) -> &Model {
        &self.model
    }

    pub fn next_call(&mut self) -> Call {
        if !self.begun || self.stuck > 60 {
            self.begun = true;
            self.stuck = 0;
            self.left = 0;
            return match self.edition == &FIRST {
                true => Call::Fresh,
                false => Call::FreshSecond,
            };
        }
        match self.rng.below(24) {
            0 => self.bad_call(),
            1 | 2 => self.read(),
            3 => self.judged(),
            _ => self.update(),
        }
    }

    /// Check and state, by turns.
    fn judged(&mut self) -> Call {
        self.told = !self.told;
        match self.told {
            true => Call::State,
            false => Call::Check,
        }
    }

    /// Tells the history the answer to the call it gave last.
    pub fn observe(&mut self, call: Call, answer: &Answer) {
        if answer.number == number::DONE {
            self.model.record(call);
        }
        if answer.number == number::NOTHING_CHANGED {
            self.left = self.length_of_update();
        }
        if [number::NO_FREE_PAGE, number::NO_FREE_SLOT].contains(&answer.number) {
            self.stuck += 1;
            if matches!(call, Call::Return(_)) {
                // "The whole update is abandoned, its earlier calls included."
                self.model.record(Call::Abandon);
            }
            // What cannot grow may still shrink, or start over by an abandon.
            self.growing = self.rng.once_in(3);
            self.left = self.left.min(self.rng.below(8));
        }
    }

    fn update(&mut self) -> Call {
        if !self.model.is_open() {
            if self.prunes && self.rng.once_in(8) {
                return self.prune();
            }
            self.left = self.length_of_update();
            return Call::Open;
        }
        if self.left == 0 {
            let abandons = self.rng.once_in(self.abandons) && self.kind != Kind::NewRoots;
            return if abandons {
                Call::Abandon
            } else {
                Call::Commit
            };
        }
        self.left -= 1;
        match self.kind {
            Kind::NewRoots if self.returns && self.rng.once_in(150) => self.go_back(),
            Kind::NewRoots => self.renew(),
            _ if self.returns && self.rng.once_in(25) => self.go_back(),
            _ => self.insert_or_delete(),
        }
    }

    fn go_back(&mut self) -> Call {
        Call::Return(self.some_committed())
    }

    fn some_committed(&mut self) -> u32 {
        let (oldest, current) = (self.model.oldest, self.model.current);
        match self.rng.below(4) {
            0 => current,
            1 => current.saturating_sub(1).max(oldest),
            _ => self.rng.between(oldest, current),
        }
    }

    /// Mostly to a version among the older half.
    fn prune(&mut self) -> Call {
        let oldest = self.model.oldest;
        Call::Prune(match self.rng.below(6) {
            0 => oldest,
            1 => self.some_committed(),
            _ => oldest + (self.some_committed() - oldest) / 2,
        })
    }

    fn length_of_update(&mut self) -> u32 {
        let all = self.edition.most_gathered;
        match (self.kind, self.rng.below(4)) {
            (Kind::NewRoots, _) if self.alive().len() < all => (all - self.alive().len()) as u32,
            (Kind::NewRoots, _) => 2 * self.renewed() as u32,
            (_, 0) => self.rng.below(3),
            (Kind::HotPage, 1) => self.rng.between(20, 120),
            (_, 1) => self.rng.between(10, 60),
            _ => self.rng.between(1, 12),
        }
    }

    fn insert_or_delete(&mut self) -> Call {
        let alive = self.alive();
        if alive.len() * 8 > self.keys.len() * 7 {
            self.growing = false;
        } else if alive.len() * 12 < self.keys.len() || alive.len() < 2 {
            self.growing = true;
        }
        let chance = match self.kind {
            Kind::GrowThenShrink => 10,
            _ => 4,
        };
        if self.growing != self.rng.once_in(chance) {
            self.insert(&alive)
        } else {
            self.delete(&alive)
        }
    }

    /// As many keys as make a page of them overflow: one entry too many, of which
    /// as many live as one page is filled with.
    fn renewed(&self) -> usize {
        self.edition.most_entries - self.edition.most_gathered + 1
    }

    /// Five of sixteen keys (in edition 2 nine of 32) are deleted and inserted
    /// again: 21 entries of which 16 live, so one new page, which is the new root.
    fn renew(&mut self) -> Call {
        let alive = self.alive();
        let all = self.edition.most_gathered;
        if alive.len() <= all - self.renewed() {
            self.growing = true;
        } else if alive.len() >= all {
            self.growing = false;
        }
        if self.growing {
            self.insert(&alive)
        } else {
            self.delete(&alive)
        }
    }

    fn alive(&self) -> Vec<u32> {
        self.model.at(self.model.last()).keys().copied().collect()
    }

    fn insert(&mut self, alive: &[u32]) -> Call {
        let absent: Vec<u32> = self
            .keys
            .iter()
            .filter(|key| alive.binary_search(key).is_err())
            .copied()
            .collect();
        let key = match self.order {
            _ if absent.is_empty() => self.rng.below(FIRST_BENCH_KEY),
            Order::Rising => absent[0],
            Order::Falling => absent[absent.len() - 1],
            Order::Scattered => *self.rng.pick(&absent).unwrap_or(&0),
        };
        Call::Insert(key, self.some_value())
    }

    /// Mostly any 32 bits; 0 is a value too.
    fn some_value(&mut self) -> u32 {
        match self.rng.below(8) {
            0 => 0,
            1 => u32::MAX,
            _ => self.rng.word(),
        }
    }

    fn delete(&mut self, alive: &[u32]) -> Call {
        // Mostly near one place, so that a page runs low before the others do.
        let near = match self.rng.below(3) {
            0 => self.rng.below(alive.len().max(1) as u32) as usize,
            1 => alive.len() / 2,
            _ => 0,
        };
        Call::Delete(alive.get(near).copied().unwrap_or(0))
    }

    /// A key at or near one that it uses.
    fn some_key(&mut self) -> u32 {
        let key = *self.rng.pick(&self.keys).unwrap_or(&0);
        match self.rng.below(8) {
            0 => self.rng.below(HIGHEST_KEY + 1),
            1 => key.saturating_sub(1),
            2 => (key + 1).min(HIGHEST_KEY),
            _ => key,
        }
    }

    fn some_version(&mut self) -> u32 {
        let (oldest, last) = (self.model.oldest, self.model.last());
        match self.rng.below(3) {
            0 => last,
            1 => last.saturating_sub(1).max(oldest),
            _ => self.rng.between(oldest, last),
        }
    }

    fn read(&mut self) -> Call {
        let version = self.some_version();
        match self.rng.below(7) {
            0 | 1 => return Call::Lookup(self.some_key(), version),
            2 => return Call::Visits(self.some_key(), version, self.rng.below(8) as usize),
            3 => return self.difference(),
            4 => return self.life(),
            _ => {}
        }
        let (one, other) = match self.rng.below(3) {
            0 => (0, HIGHEST_KEY),
            _ => (self.some_key(), self.some_key()),
        };
        let (low, high) = (one.min(other), one.max(other));
        let wanted = self.model.listed(low, high, version).len();
        Call::Range(low, high, version, self.some_length(wanted))
    }

    /// As many numbers as wanted, or about as many.
    fn some_length(&mut self, wanted: usize) -> usize {
        match self.rng.below(4) {
            0 => wanted.saturating_sub(1),
            1 => wanted + self.rng.below(5) as usize,
            _ => wanted,
        }
    }

    fn difference(&mut self) -> Call {
        let (old, new) = (self.some_version(), self.some_version());
        let wanted = self.model.differing(old, new).len();
        Call::Difference(old, new, self.some_length(wanted))
    }

    fn life(&mut self) -> Call {
        let key = self.some_key();
        let wanted = self.model.lived(key).len();
        Call::Life(key, self.some_length(wanted))
    }

    /// A key above the highest.
    fn too_large(&mut self) -> u32 {
        match self.rng.below(3) {
            0 => HIGHEST_KEY + 1,
            1 => u32::MAX,
            _ => self.rng.between(HIGHEST_KEY + 1, u32::MAX),
        }
    }

    /// A version that cannot be read: one that is still to come, or was pruned, which
    /// is refused alike.
    fn late(&mut self) -> u32 {
        let oldest = self.model.oldest;
        match self.rng.below(2) {
            _ if oldest > 0 && self.rng.once_in(2) => self.rng.between(0, oldest - 1),
            0 => self.model.last() + 1,
            _ => self.rng.between(self.model.last() + 1, u32::MAX),
        }
    }

    fn bench_key(&mut self) -> u32 {
        match self.rng.below(2) {
            0 => FIRST_BENCH_KEY,
            _ => self.rng.between(FIRST_BENCH_KEY, HIGHEST_KEY),
        }
    }

    fn bad_prune(&mut self, late: u32) -> Call {
        match self.rng.once_in(2) {
            true => Call::Prune(late),
            false if self.model.is_open() => self.prune(),
            false => Call::Prune(self.model.last() + 1),
        }
    }

    /// A call that is refused, for one reason or for several at once.
    fn bad_call(&mut self) -> Call {
        let (too_large, late, bench) = (self.too_large(), self.late(), self.bench_key());
        let (key, version) = (self.some_key(), self.some_version());
        let word = self.rng.word();
        if self.prunes && self.rng.once_in(8) {
            return self.bad_prune(late);
        }
        match self.rng.below(if self.returns { 20 } else { 18 }) {
            0 => Call::Insert(too_large, word),
            1 => Call::Delete(too_large),
            2 => Call::Lookup(too_large, version),
            3 => Call::Lookup(key, late),
            4 => Call::Lookup(too_large, late),
            5 => Call::Range(key + 1, key, version, 4),
            6 => Call::Range(key, too_large, late, 4),
            7 => Call::Range(0, HIGHEST_KEY, late, 0),
            8 if self.model.is_open() => Call::Open,
            8 if self.rng.once_in(2) => Call::Commit,
            8 => Call::Abandon,
            9 | 10 => self.updates_turned_round(),
            11 => Call::Visits(too_large, version, 7),
            12 => Call::Visits(key, late, 0),
            13 => Call::Insert(bench, word),
            14 => Call::Difference(late, version, 4),
            15 => Call::Difference(version, late, 0),
            16 => Call::Life(too_large, 3),
            18 => Call::Return(late),
            19 if self.model.is_open() => Call::Return(self.model.last()),
            19 => self.go_back(),
            _ => Call::Range(too_large, too_large, version, 4),
        }
    }

    /// An insert of a key that is alive, or a delete of one that is not, or
    /// any update while none is open.
    fn updates_turned_round(&mut self) -> Call {
        let alive = self.alive();
        match self.rng.pick(&alive) {
            Some(key) if self.rng.once_in(2) => Call::Insert(*key, 1),
            _ => match self.insert(&alive) {
                Call::Insert(key, _) => Call::Delete(key),
                call => call,
            },
        }
    }
}

/// `count` keys, rising: close together or far apart, or at the very ends of
/// what an insert takes.
fn some_keys(rng: &mut Rng, count: u32) -> Vec<u32> {
    let highest = FIRST_BENCH_KEY - 1;
    let step = match rng.below(3) {
        0 => 1,
        1 => rng.between(2, 100),
        _ => highest / count,
    };
    let spread = step * (count - 1);
    let first = match rng.below(3) {
        0 => 0,
        1 => highest - spread,
        _ => rng.between(0, highest - spread),
    };
    (0..count).map(|index| first + index * step).collect()
}

/// The first `count` calls of the history of edition 1 named by `seed`, as this
/// program's answers lead it, and the store they end with.
pub fn calls(seed: u64, kind: Kind, pages: usize, count: usize) -> (Vec<Call>, Vec<u8>) {
    calls_of(&FIRST, seed, kind, pages, count)
}

/// The same of any edition.
pub fn calls_of(
    edition: &'static Edition,
    seed: u64,
    kind: Kind,
    pages: usize,
    count: usize,
) -> (Vec<Call>, Vec<u8>) {
    let mut history = History::of(edition, seed, kind, pages);
    let mut store = vec![0; pages * edition.page_bytes];
    let mut calls = Vec::new();
    for _ in 0..count {
        let call = history.next_call();
        let mut list = vec![0; call.list_length()];
        let answer = Reference.apply(call, &mut store, &mut list);
        history.observe(call, &answer);
        calls.push(call);
    }
    (calls, store)
}

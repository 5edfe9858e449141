//! Lines from a seed: histories of calls on stores of many shapes, damage and
//! malformed lines among them.

use super::line::{Line, MOST_PAGES};
use super::session::LIST_AT_FIRST;
use super::writer::Writer;
use crate::damage::{kinds, tamper};
use crate::edition::{Edition, EDITIONS, FIRST};
use crate::engine::Call;
use crate::history::{History, Kind, KINDS};
use crate::layout::{FIRST_BENCH_KEY, HIGHEST_KEY};
use crate::model::Model;
use crate::samples::sound_store_of;
use crate::store;

/// At least `count` lines, named by `seed`. They end with the history at hand.
pub fn lines(seed: u64, count: usize) -> Vec<u8> {
    let mut writer = Writer::new(seed);
    writer.before_any_store();
    while writer.count < count {
        writer.on_some_store();
    }
    writer.text
}

impl Writer {
    fn before_any_store(&mut self) {
        for _ in 0..self.rng.below(6) {
            self.any_call();
        }
        if self.rng.once_in(8) {
            // Once with the list as it is at first.
            let edition = self.some_edition();
            self.write_fresh(edition, 6);
            self.write(Line::Call(Call::Range(0, HIGHEST_KEY, 0, LIST_AT_FIRST)));
        }
        self.write(Line::List(40));
    }

    /// A store and a history on it, up to a cut or to another store.
    fn on_some_store(&mut self) {
        let mut history = self.begin();
        for _ in 0..self.rng.between(40, 400) {
            match self.rng.below(80) {
                0 => self.malformed_line(),
                1 | 2 => self.damaged_for_a_while(),
                3 | 4 => self.as_before(&mut history),
                _ => self.go_on(&mut history),
            }
        }
        match self.rng.below(4) {
            0 => self.cut_off(),
            1 => self.wrong_length(),
            2 => self.converted(&mut history),
            _ => {}
        }
    }

    fn some_edition(&mut self) -> &'static Edition {
        self.rng.pick(&EDITIONS).copied().unwrap_or(&FIRST)
    }

    /// The store as edition 2, if it is one of edition 1 and its update is
    /// committed, and the history on it.
    fn converted(&mut self, history: &mut History) {
        if self.rng.once_in(3) {
            self.write(Line::Swap);
            self.write(Line::Convert(8));
        }
        if history.model().is_open() {
            self.write(Line::RawCommit);
        }
        let pages = match self.rng.below(6) {
            0 => self.rng.below(6),
            1 => self.rng.between(4096, 4098),
            2 => self.rng.between(6, 10),
            _ => store::page_count(&self.store).max(6),
        };
        let number = self.write(Line::Convert(pages)).number;
        self.write(Line::Swap);
        self.write(Line::Call(Call::Check));
        if number == 0 {
            let model = Model::of_store(&self.store);
            let (edition, seed) = (Edition::of(&self.store), self.rng.draw());
            let mut history =
                History::on_store_of(edition, seed, Kind::Mixed, pages as usize, model);
            for _ in 0..40 {
                self.go_on(&mut history);
            }
        }
        self.write(Line::Swap);
    }

    /// The next call of the history.
    fn go_on(&mut self, history: &mut History) {
        let call = history.next_call();
        let answer = match call {
            Call::Fresh | Call::FreshSecond => {
                let edition = Edition::of(&self.store);
                self.write_fresh(edition, store::page_count(&self.store))
            }
            _ => self.write_call(call),
        };
        history.observe(call, &answer);
    }

    /// An empty version, as it was made before 2026-05, or bench keys, as they
    /// went in before 2026-06.
    fn as_before(&mut self, history: &mut History) {
        if self.rng.once_in(2) {
            let answer = self.write(Line::RawCommit);
            return history.observe(Call::Commit, &answer);
        }
        for _ in 0..self.rng.between(1, 4) {
            let key = match self.rng.below(4) {
                0 => self.any_key(),
                _ => self.rng.between(FIRST_BENCH_KEY - 1, HIGHEST_KEY),
            };
            let value = self.rng.word();
            let answer = self.write(Line::RawInsert(key, value));
            history.observe(Call::Insert(key, value), &answer);
        }
    }

    fn begin(&mut self) -> History {
        let kind = *self.rng.pick(&KINDS).unwrap_or(&Kind::Mixed);
        let edition = self.some_edition();
        let seed = self.rng.draw();
        if self.rng.once_in(4) {
            self.write_bytes(sound_store_of(edition, seed));
            let pages = store::page_count(&self.store) as usize;
            let model = Model::of_store(&self.store);
            return History::on_store_of(edition, seed, kind, pages, model);
        }
        let pages = match self.rng.below(4) {
            0 => self.rng.between(6, 10),
            1 => self.rng.between(60, 130),
            _ => self.rng.between(10, 48),
        };
        self.write_fresh(edition, pages);
        let model = Model::fresh_of(edition);
        History::on_store_of(edition, seed, kind, pages as usize, model)
    }

    /// Damage, some calls on it, and the bytes as they were.
    fn damaged_for_a_while(&mut self) {
        let before = self.store.clone();
        let mut damaged = before.clone();
        match self.rng.below(4) {
            0 => damaged[self.rng.below(5) as usize] = self.rng.below(4) as u8,
            1 => {
                let kinds = kinds();
                let kind = &kinds[self.rng.below(kinds.len() as u32) as usize];
                kind.make(&mut damaged, &mut self.rng);
            }
            2 => tamper::flip_bit(&mut damaged, &mut self.rng),
            _ => tamper::set_some_field(&mut damaged, &mut self.rng),
        }
        self.write_differing(&damaged);
        self.write(Line::Call(Call::Check));
        for _ in 0..self.rng.between(2, 8) {
            self.any_call();
        }
        self.write_differing(&before);
    }

    fn cut_off(&mut self) {
        let length = self.store.len() as u32;
        let page_bytes = Edition::of(&self.store).page_bytes as u32;
        let pages = length / page_bytes;
        let length = match self.rng.below(5) {
            0 => self.rng.below(8),
            1 => self.rng.below(length + 2),
            2 => length - 1,
            // Of an edition 2 store also a length that is edition 1's alone.
            3 => self.rng.below(2 * pages + 1) * page_bytes / 2,
            _ => self.rng.below(pages + 1) * page_bytes,
        };
        self.write(Line::Cut(length));
        for _ in 0..6 {
            self.any_call();
        }
        self.write(Line::Byte(length, 1));
    }

    /// A refused `store` leaves its bytes as they were lent.
    fn wrong_length(&mut self) {
        let pages = match self.rng.below(3) {
            0 => self.rng.below(6),
            1 => 4097,
            _ => self.rng.between(4097, MOST_PAGES),
        };
        let edition = self.some_edition();
        self.write_fresh(edition, pages);
        for _ in 0..2 {
            self.any_call();
        }
    }

    /// A call with arguments that know nothing of the store.
    fn any_call(&mut self) {
        let version = match self.rng.below(4) {
            0 => self.rng.word(),
            _ => self.rng.below(12),
        };
        let (key, other) = (self.any_key(), self.any_key());
        let call = match self.rng.below(16) {
            0 => Call::Check,
            1 => Call::Open,
            2 => Call::Insert(key, other),
            3 => Call::Delete(key),
            4 => Call::Commit,
            5 => Call::Abandon,
            6 | 7 => Call::Visits(key, version, 7),
            8 | 9 => Call::Lookup(key, version),
            10 => Call::Difference(version, self.rng.below(12), 40),
            11 => Call::Life(key, 9),
            12 => Call::Return(version),
            13 => Call::Prune(version),
            14 => Call::State,
            _ => Call::Range(key, other, version, self.rng.below(400) as usize),
        };
        self.write_call(call);
    }

    fn any_key(&mut self) -> u32 {
        match self.rng.below(7) {
            0 => self.rng.word(),
            1 => HIGHEST_KEY + self.rng.below(2),
            2 => FIRST_BENCH_KEY - self.rng.below(2),
            3 => self.rng.below(HIGHEST_KEY),
            _ => self.rng.below(2000),
        }
    }

    fn malformed_line(&mut self) {
        let line = *self.rng.pick(MALFORMED).unwrap_or(&"");
        self.write_text(line.as_bytes());
    }
}

/// Lines that are never good ones.
pub const MALFORMED: &[&str] = &[
    "",
    " ",
    "open ",
    " open",
    "Open",
    "open\r",
    "open 1",
    "insert 1",
    "insert 1  2",
    "rawinsert 1",
    "rawcommit 1",
    "raw insert 1 2",
    "insert 1 -2",
    "insert 1 4294967296",
    "get 1",
    "range 1 2",
    "life",
    "life 1 2",
    "return",
    "return 1 2",
    "return to 1",
    "prune",
    "prune 1 2",
    "diff 1",
    "diff 1 2 3",
    "difference 1 2",
    "visits 1",
    "visits 1 2 3",
    "check 1",
    "state 1",
    "state of",
    "store",
    "store 5001",
    "store 6 6",
    "store2",
    "store2 5001",
    "store2 6 6",
    "store3 6",
    "convert",
    "convert 5001",
    "convert 6 6",
    "swap 1",
    "list",
    "list 1000001",
    "byte 1",
    "byte 1 256",
    "byte 1 2 3",
    "cut",
    "cut 1 2",
    "lookup 1 1",
    "\u{0}",
];

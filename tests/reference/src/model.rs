//! The settings of each version as plain ordered maps.
//!
//! "The settings alive at a committed version are what the accepted inserts
//! and deletes of the updates committed up to it leave." The model knows
//! nothing of pages: it answers every call as a store with endless pages and
//! slots would, so it never gives 1 to 4, 12 or 13.

use std::collections::BTreeMap;

use crate::difference::differences;
use crate::edition::{Edition, FIRST, SECOND};
use crate::engine::{Answer, Call};
use crate::image::Image;
use crate::layout::{FIRST_BENCH_KEY, HIGHEST_KEY, HIGHEST_VERSION};
use crate::state::State;
use crate::{life, number, store, walk};

pub type Settings = BTreeMap<u32, u32>;

#[derive(Clone, Debug, PartialEq, Eq)]
pub struct Model {
    /// Known for prune's 3 alone.
    edition: &'static Edition,
    pub current: u32,
    pub oldest: u32,
    /// The settings from a version on, up to the next one that stands here.
    committed: BTreeMap<u32, Settings>,
    open: Option<Settings>,
}

impl Default for Model {
    fn default() -> Model {
        Model::fresh()
    }
}

impl Model {
    pub fn fresh() -> Model {
        Model::fresh_of(&FIRST)
    }

    pub fn fresh_of(edition: &'static Edition) -> Model {
        Model {
            edition,
            current: 0,
            oldest: 0,
            committed: BTreeMap::from([(0, Settings::new())]),
            open: None,
        }
    }

    /// "For a sound store lent from elsewhere, the settings its walks show
    /// stand for the history so far."
    pub fn of_store(bytes: &[u8]) -> Model {
        let header = store::header(bytes);
        let settings = |version| walk::settings(bytes, version);
        let versions = Image::read(bytes).turning_points();
        let committed = versions.into_iter().filter(|v| *v <= header.current);
        Model {
            edition: header.edition,
            current: header.current,
            oldest: header.oldest,
            committed: committed.map(|v| (v, settings(v))).collect(),
            open: header.open.then(|| settings(header.last())),
        }
    }

    pub fn is_open(&self) -> bool {
        self.open.is_some()
    }

    pub fn last(&self) -> u32 {
        self.current + u32::from(self.is_open())
    }

    /// The settings alive at `version`, which can be read.
    pub fn at(&self, version: u32) -> &Settings {
        match &self.open {
            Some(open) if version > self.current => open,
            _ => {
                let mut upto = self.committed.range(..=version);
                upto.next_back().expect("the oldest is always there").1
            }
        }
    }

    /// What a range is to write.
    pub fn listed(&self, low: u32, high: u32, version: u32) -> Vec<u32> {
        let found = self.at(version).range(low..=high);
        found.flat_map(|(key, value)| [*key, *value]).collect()
    }

    /// The answer to `call` if pages and slots were endless. Of a lookup's
    /// pages it knows only whether they are refused by 5 or 6, of a state what
    /// is not of pages and slots.
    pub fn answer(&self, call: Call) -> Answer {
        match call {
            Call::Fresh | Call::FreshSecond | Call::Check => Answer::default(),
            Call::State => self.answer_to_state(),
            Call::Open => Answer::of(self.number_of_open()),
            Call::Commit if self.nothing_changed() => Answer::of(number::NOTHING_CHANGED),
            Call::Commit | Call::Abandon => Answer::of(self.number_unless_open()),
            Call::Return(version) if !self.is_committed(version) => Answer::of(number::VERSION),
            Call::Prune(version) => Answer::of(self.number_of_prune(version)),
            Call::Return(_) => Answer::of(self.number_unless_open()),
            Call::Insert(key, _) if key >= FIRST_BENCH_KEY => Answer::of(number::ARGUMENT),
            Call::Insert(key, _) => Answer::of(self.number_of_update(key, number::KEY_ALIVE)),
            Call::Delete(key) => Answer::of(self.number_of_update(key, number::KEY_NOT_ALIVE)),
            Call::Lookup(key, version) => self.answer_to_lookup(key, version),
            Call::Range(low, high, version, length) => {
                self.answer_to_range(low, high, version, length)
            }
            Call::Visits(key, version, _) => Answer::of(self.number_of_reading(key, version)),
            Call::Difference(old, new, length) => self.answer_to_difference(old, new, length),
            Call::Life(key, length) => self.answer_to_life(key, length),
        }
    }

    fn answer_to_state(&self) -> Answer {
        let state = State {
            current: self.current,
            open: u32::from(self.is_open()),
            edition: u32::from(self.edition.number),
            oldest: self.oldest,
            ..State::default()
        };
        Answer {
            state,
            ..Answer::default()
        }
    }

    fn is_committed(&self, version: u32) -> bool {
        (self.oldest..=self.current).contains(&version)
    }

    fn can_read(&self, version: u32) -> bool {
        (self.oldest..=self.last()).contains(&version)
    }

    fn number_of_prune(&self, version: u32) -> u32 {
        if self.edition == &FIRST {
            number::EDITION
        } else if !self.is_committed(version) {
            number::VERSION
        } else if self.is_open() {
            number::ALREADY_OPEN
        } else {
            number::DONE
        }
    }

    fn number_of_open(&self) -> u32 {
        if self.is_open() {
            number::ALREADY_OPEN
        } else if self.current == HIGHEST_VERSION {
            number::VERSIONS_USED_UP
        } else {
            number::DONE
        }
    }

    fn nothing_changed(&self) -> bool {
        self.open.as_ref() == Some(self.at(self.current))
    }

    fn number_unless_open(&self) -> u32 {
        if self.is_open() {
            number::DONE
        } else {
            number::NONE_OPEN
        }
    }

    /// `refusal` is the number for a key that is alive, or for one that is
    /// not.
    fn number_of_update(&self, key: u32, refusal: u32) -> u32 {
        if key > HIGHEST_KEY {
            return number::ARGUMENT;
        }
        let alive = match &self.open {
            None => return number::NONE_OPEN,
            Some(settings) => settings.contains_key(&key),
        };
        if alive == (refusal == number::KEY_ALIVE) {
            refusal
        } else {
            number::DONE
        }
    }

    fn number_of_reading(&self, key: u32, version: u32) -> u32 {
        if key > HIGHEST_KEY {
            number::ARGUMENT
        } else if !self.can_read(version) {
            number::VERSION
        } else {
            number::DONE
        }
    }

    fn answer_to_lookup(&self, key: u32, version: u32) -> Answer {
        let number = self.number_of_reading(key, version);
        if number != number::DONE {
            return Answer::of(number);
        }
        let found = self.at(version).get(&key);
        Answer {
            found: found.is_some(),
            value: found.copied().unwrap_or(0),
            ..Answer::default()
        }
    }

    fn answer_to_range(&self, low: u32, high: u32, version: u32, length: usize) -> Answer {
        if low > high || high > HIGHEST_KEY {
            return Answer::of(number::ARGUMENT);
        }
        if !self.can_read(version) {
            return Answer::of(number::VERSION);
        }
        let wanted = self.listed(low, high, version).len();
        let short = length < wanted;
        Answer {
            count: wanted as u64 / 2,
            ..Answer::of(if short { number::LIST_TOO_SHORT } else { 0 })
        }
    }

    /// What a difference is to write.
    pub fn differing(&self, old: u32, new: u32) -> Vec<u32> {
        differences(self.at(old), self.at(new)).concat()
    }

    fn answer_to_difference(&self, old: u32, new: u32, length: usize) -> Answer {
        if !self.can_read(old) || !self.can_read(new) {
            return Answer::of(number::VERSION);
        }
        let wanted = self.differing(old, new).len();
        let short = length < wanted;
        Answer {
            count: wanted as u64 / 4,
            ..Answer::of(if short { number::LIST_TOO_SHORT } else { 0 })
        }
    }

    /// What the life of a key is to write.
    pub fn lived(&self, key: u32) -> Vec<u32> {
        let value =
            |(version, settings): (&u32, &Settings)| (*version, settings.get(&key).copied());
        life::stretches(self.committed.iter().map(value)).concat()
    }

    fn answer_to_life(&self, key: u32, length: usize) -> Answer {
        if key > HIGHEST_KEY {
            return Answer::of(number::ARGUMENT);
        }
        let wanted = self.lived(key).len();
        let short = length < wanted;
        Answer {
            count: wanted as u64 / 3,
            ..Answer::of(if short { number::LIST_TOO_SHORT } else { 0 })
        }
    }

    /// Makes the change of a call that was accepted.
    pub fn record(&mut self, call: Call) {
        match call {
            Call::Fresh => *self = Model::fresh_of(&FIRST),
            Call::FreshSecond => *self = Model::fresh_of(&SECOND),
            Call::Open => self.open = Some(self.at(self.current).clone()),
            Call::Insert(key, value) => {
                self.opened().insert(key, value);
            }
            Call::Delete(key) => {
                self.opened().remove(&key);
            }
            Call::Commit => {
                let settings = std::mem::take(self.opened());
                self.open = None;
                self.current += 1;
                self.committed.insert(self.current, settings);
            }
            Call::Abandon => self.open = None,
            Call::Return(version) => *self.opened() = self.at(version).clone(),
            Call::Prune(version) => self.prune(version),
            Call::Check | Call::State | Call::Lookup(..) | Call::Range(..) => {}
            Call::Visits(..) | Call::Difference(..) | Call::Life(..) => {}
        }
    }

    fn prune(&mut self, version: u32) {
        let oldest = self.at(version).clone();
        self.committed = self.committed.split_off(&version);
        self.committed.insert(version, oldest);
        self.oldest = version;
    }

    fn opened(&mut self) -> &mut Settings {
        let open = self.open.as_mut();
        open.expect("an accepted update has an update open")
    }
}

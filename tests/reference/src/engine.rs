//! A call, its answer, and the shape of a program that answers calls.

use crate::calls;
use crate::state::State;

/// A call with its arguments. The store, and the list where one is written,
/// are lent beside it.
#[derive(Clone, Copy, Debug, PartialEq, Eq)]
pub enum Call {
    /// Making fresh, of edition 1.
    Fresh,
    /// Making fresh, of edition 2.
    FreshSecond,
    Check,
    State,
    Open,
    /// Key and value.
    Insert(u32, u32),
    /// Key.
    Delete(u32),
    Commit,
    Abandon,
    /// Version.
    Return(u32),
    /// Version.
    Prune(u32),
    /// Key and version.
    Lookup(u32, u32),
    /// Low, high, version, and how many numbers the lent list holds.
    Range(u32, u32, u32, usize),
    /// Key, version, and how many numbers the lent list holds.
    Visits(u32, u32, usize),
    /// The old version, the new one, and how many numbers the lent list holds.
    Difference(u32, u32, usize),
    /// Key, and how many numbers the lent list holds.
    Life(u32, usize),
}

impl Call {
    /// How many numbers the list lent with this call holds.
    pub fn list_length(self) -> usize {
        match self {
            Call::Range(_, _, _, length)
            | Call::Visits(_, _, length)
            | Call::Difference(_, _, length)
            | Call::Life(_, length) => length,
            _ => 0,
        }
    }

    /// Whether a list is lent with this call.
    pub fn takes_list(self) -> bool {
        matches!(
            self,
            Call::Range(..) | Call::Visits(..) | Call::Difference(..) | Call::Life(..)
        )
    }

    /// The same call with a list that holds `length` numbers, if it takes one.
    pub fn with_list(self, length: usize) -> Call {
        match self {
            Call::Range(low, high, version, _) => Call::Range(low, high, version, length),
            Call::Visits(key, version, _) => Call::Visits(key, version, length),
            Call::Difference(old, new, _) => Call::Difference(old, new, length),
            Call::Life(key, _) => Call::Life(key, length),
            _ => self,
        }
    }
}

/// All that a call gives back besides the bytes of store and list. "Any result
/// not named here is 0."
#[derive(Clone, Copy, Debug, Default, PartialEq, Eq)]
pub struct Answer {
    pub number: u32,
    /// Check: the lowest broken rule.
    pub rule: u32,
    /// Lookup: whether the key is alive, and its value.
    pub found: bool,
    pub value: u32,
    /// Range: the count of settings found. Visits: of pages. Difference: of
    /// differences. Life: of stretches.
    pub count: u64,
    /// State: what the store tells of itself.
    pub state: State,
}

impl Answer {
    pub fn of(number: u32) -> Answer {
        Answer {
            number,
            ..Answer::default()
        }
    }

    /// Of check: the number, and the lowest broken rule.
    pub fn judged((number, rule): (u32, u32)) -> Answer {
        Answer {
            rule,
            ..Answer::of(number)
        }
    }

    /// Of state: the number, and what the store tells.
    pub fn told((number, state): (u32, State)) -> Answer {
        Answer {
            state,
            ..Answer::of(number)
        }
    }

    /// Of a lookup: the number, whether the key is alive, and its value.
    pub fn looked((number, found, value): (u32, bool, u32)) -> Answer {
        Answer {
            found,
            value,
            ..Answer::of(number)
        }
    }

    /// The answer of a call that gives a number and a count.
    pub fn counted((number, count): (u32, impl Into<u64>)) -> Answer {
        Answer {
            count: count.into(),
            ..Answer::of(number)
        }
    }
}

/// A program that answers calls: this one, or another to be run beside it.
pub trait Engine {
    /// Answers `call` on `store`. `list` holds as many numbers as the call
    /// says.
    fn apply(&mut self, call: Call, store: &mut [u8], list: &mut [u32]) -> Answer;

    /// Converts `source`, of edition 1, into `target`, of edition 2.
    fn convert(&mut self, source: &[u8], target: &mut [u8]) -> u32;
}

/// This program.
pub struct Reference;

impl Engine for Reference {
    fn apply(&mut self, call: Call, store: &mut [u8], list: &mut [u32]) -> Answer {
        apply(call, store, list)
    }

    fn convert(&mut self, source: &[u8], target: &mut [u8]) -> u32 {
        calls::convert(source, target)
    }
}

pub fn apply(call: Call, store: &mut [u8], list: &mut [u32]) -> Answer {
    match call {
        Call::Fresh => Answer::of(calls::fresh(store)),
        Call::FreshSecond => Answer::of(calls::fresh_second(store)),
        Call::Open => Answer::of(calls::open(store)),
        Call::Insert(key, value) => Answer::of(calls::insert(store, key, value)),
        Call::Delete(key) => Answer::of(calls::delete(store, key)),
        Call::Commit => Answer::of(calls::commit(store)),
        Call::Abandon => Answer::of(calls::abandon(store)),
        Call::Return(version) => Answer::of(calls::return_to(store, version)),
        Call::Prune(version) => Answer::of(calls::prune(store, version)),
        Call::Check => Answer::judged(calls::check(store)),
        Call::State => Answer::told(calls::state(store)),
        Call::Lookup(key, version) => Answer::looked(calls::lookup(store, key, version)),
        Call::Range(low, high, version, _) => {
            Answer::counted(calls::range(store, low, high, version, list))
        }
        Call::Visits(key, version, _) => Answer::counted(calls::visits(store, key, version, list)),
        Call::Difference(old, new, _) => Answer::counted(calls::difference(store, old, new, list)),
        Call::Life(key, _) => Answer::counted(calls::life(store, key, list)),
    }
}

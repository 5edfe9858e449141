//! The proved library, through its Rust binding, as an engine to run beside the
//! reference.

use reference::engine::{Answer, Call, Engine};

pub use rcst::*;

/// The proved library.
pub struct Proved;

impl Engine for Proved {
    fn apply(&mut self, call: Call, store: &mut [u8], list: &mut [u32]) -> Answer {
        match call {
            Call::Fresh => Answer::of(fresh(store)),
            Call::FreshSecond => Answer::of(fresh_second(store)),
            Call::Open => Answer::of(open(store)),
            Call::Commit => Answer::of(commit(store)),
            Call::Abandon => Answer::of(abandon(store)),
            Call::Insert(key, value) => Answer::of(insert(store, key, value)),
            Call::Delete(key) => Answer::of(delete(store, key)),
            Call::Return(version) => Answer::of(return_to(store, version)),
            Call::Prune(version) => Answer::of(prune(store, version)),
            Call::Check => Answer::judged(check(store)),
            Call::State => Answer::told(as_reference(state(store))),
            Call::Lookup(key, version) => Answer::looked(lookup(store, key, version)),
            Call::Range(low, high, version, _) => listed(range(store, low, high, version, list)),
            Call::Life(key, _) => listed(life(store, key, list)),
            Call::Difference(old, new, _) => listed(difference(store, old, new, list)),
            Call::Visits(key, version, _) => listed(visits(store, key, version, list)),
        }
    }

    fn convert(&mut self, source: &[u8], target: &mut [u8]) -> u32 {
        convert(source, target)
    }
}

fn listed((number, count): (u32, usize)) -> Answer {
    Answer::counted((number, count as u64))
}

fn as_reference((number, told): (u32, State)) -> (u32, reference::state::State) {
    let told = reference::state::State {
        pages: told.pages,
        current: told.current,
        open: told.open,
        roots: told.roots,
        edition: told.edition,
        free: told.free,
        oldest: told.oldest,
    };
    (number, told)
}

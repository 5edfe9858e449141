//! What a store tells of itself, or the number that speaks against it.

use rcst::number::VERSION_ABOVE_LAST;
use rcst::State;

use crate::fault::Fault;

pub fn state(store: &[u8]) -> Result<State, u32> {
    match rcst::state(store) {
        (0, state) => Ok(state),
        (number, _) => Err(number),
    }
}

/// The version that is current.
pub fn current(store: &[u8]) -> Result<u32, u32> {
    state(store).map(|state| state.current)
}

/// How many roots the directory has room for.
pub fn most_roots(state: &State) -> u32 {
    256 * state.edition
}

/// A refusal by 6 with the reason: which of the versions asked for is not there, of
/// those from the oldest up to what `top` says.
pub fn within(fault: Fault, store: &[u8], asked: &[u32], top: fn(&State) -> u32) -> Fault {
    let Ok(state) = state(store) else {
        return fault;
    };
    if u32::from(fault.status) != VERSION_ABOVE_LAST {
        return fault;
    }
    let (oldest, top) = (state.oldest, top(&state));
    match asked
        .iter()
        .find(|version| !(oldest..=top).contains(version))
    {
        Some(version) if *version < oldest => fault.but(format!(
            "version {version} was pruned; {oldest} is the oldest"
        )),
        Some(version) => fault.but(format!("there is no version {version}; {top} is the last")),
        None => fault,
    }
}

//! One release: opened, changed and committed on a copy in memory, which then takes
//! the file's place.

use std::path::Path;

use crate::fault::Fault;
use crate::file;
use crate::state::state;
use crate::store::done;

/// Makes a release of what `act` does to the open version, and gives its number.
/// `act` is given the store and the version that it makes.
pub fn release(
    path: &Path,
    dry: bool,
    act: impl FnOnce(&mut [u8], u32) -> Result<(), Fault>,
) -> Result<u32, Fault> {
    let (held, mut store) = file::take(path)?;
    let made = made(&mut store, act).map_err(|fault| fault.in_file(path))?;
    if !dry {
        held.replace(&store)?;
    }
    Ok(made)
}

fn made(
    store: &mut [u8],
    act: impl FnOnce(&mut [u8], u32) -> Result<(), Fault>,
) -> Result<u32, Fault> {
    done("open", rcst::open(store)).map_err(left_open)?;
    let version = state(store)
        .map_err(|number| Fault::number("open", number))?
        .last();
    act(store, version)?;
    done("commit", rcst::commit(store))?;
    Ok(version)
}

/// A refusal by 8, with what to do about it.
pub fn left_open(fault: Fault) -> Fault {
    match u32::from(fault.status) {
        rcst::number::UPDATE_ALREADY_OPEN => {
            fault.but("a program ended inside an update; 'rcst abandon' ends it")
        }
        _ => fault,
    }
}

//! Drops what the law lets one drop: the versions before one, and the pages that
//! only they need.

use rcst::number::WRONG_EDITION;
use rcst::State;

use super::Command;
use crate::fault::Fault;
use crate::file;
use crate::line::Line;
use crate::release::left_open;
use crate::standard;
use crate::state::{most_roots, state, within};
use crate::store::done;

pub const COMMAND: Command = Command {
    name: "prune",
    usage: "prune FILE V [--dry-run]",
    does: "drops the versions before V, in a store of edition 2",
    more: "Writes which versions go, and how many pages and roots are freed for later releases, then the oldest version,\nV. Every version from V on reads as before; those before it give 6 from then on, and nothing brings them back.\nIt is not erasure: values of versions that are gone can stand in the bytes of pages that are kept, until these\nare rewritten. 3 says that the store is of edition 1, which 'rcst convert' goes over from; 8 that an update is\nopen. --dry-run writes what would go, and leaves the file alone.",
    run,
};

fn run(mut line: Line) -> Result<u8, Fault> {
    let (path, oldest) = line.file_and(Line::version, "V")?;
    let (held, mut store) = file::take(&path)?;
    let said = pruned(&mut store, oldest).map_err(|fault| fault.in_file(&path))?;
    if line.dry {
        standard::output(&said)?;
        return Ok(0);
    }
    held.replace(&store)?;
    standard::output(&format!("{said}oldest version {oldest}\n"))?;
    Ok(0)
}

/// Prunes the copy in memory, and says what went.
fn pruned(store: &mut [u8], oldest: u32) -> Result<String, Fault> {
    let before = state(store);
    let given = done(format!("prune to {oldest}"), rcst::prune(store, oldest));
    given.map_err(|fault| advised(fault, store, oldest))?;
    let told = |number| Fault::number("prune", number);
    Ok(gone(&before.map_err(told)?, &state(store).map_err(told)?))
}

fn advised(fault: Fault, store: &[u8], oldest: u32) -> Fault {
    match (u32::from(fault.status), store.get(4)) {
        (WRONG_EDITION, Some(1)) => fault.but(
            "only edition 2 has an oldest version; 'rcst convert' makes such a store of this one",
        ),
        _ => left_open(within(fault, store, &[oldest], |state| state.current)),
    }
}

fn gone(before: &State, after: &State) -> String {
    let versions = match after.oldest - before.oldest {
        0 => "no version dropped".into(),
        1 => format!("version {} dropped", before.oldest),
        _ => format!("versions {} to {} dropped", before.oldest, after.oldest - 1),
    };
    let pages = freed("page", after.free - before.free, after.free);
    let roots = freed(
        "root",
        before.roots - after.roots,
        most_roots(after) - after.roots,
    );
    format!("{versions}\n{pages}\n{roots}\n")
}

fn freed(what: &str, freed: u32, free: u32) -> String {
    match freed {
        0 => format!("no {what} freed, {free} free"),
        1 => format!("1 {what} freed, {free} free"),
        _ => format!("{freed} {what}s freed, {free} free"),
    }
}

//! All versions of a store, as text.
//!
//! The text is lines of words: what it is, the store's size, and for each version
//! its number and the changes that make it from the one before, as `apply` takes
//! them, in key order. A last line says that it is whole. Of a store that was pruned
//! it says the oldest version, and begins with all settings of that one.

use std::io::{self, BufWriter, Write};
use std::path::Path;

use rcst::State;

use super::Command;
use crate::fault::Fault;
use crate::file;
use crate::line::Line;
use crate::progress::{self, Progress};
use crate::state::state;
use crate::store::{all, difference, Change};

pub const COMMAND: Command = Command {
    name: "dump",
    usage: "dump FILE",
    does: "text of all versions",
    more: "An open update is not dumped, nor what was pruned. 'rcst load' makes a store of the text whose answers are\nequal at every version.",
    run,
};

/// The first word of the first line, and the edition of this text.
pub const TITLE: &str = "rcst-dump 1";

fn run(mut line: Line) -> Result<u8, Fault> {
    let path = line.only_file()?;
    let bytes = file::read(&path)?;
    let state = state(&bytes).map_err(|number| Fault::number(path.display(), number))?;
    if state.is_open() {
        progress::say("an update is open: it is not dumped");
    }
    let out = BufWriter::new(io::stdout().lock());
    write(&path, &bytes, &state, out)?;
    Ok(0)
}

fn write(path: &Path, bytes: &[u8], state: &State, mut out: impl Write) -> Result<(), Fault> {
    let failed = |error: io::Error| Fault::output(&error);
    let refused = |number| Fault::number(path.display(), number);
    let State {
        edition,
        pages,
        current,
        oldest,
        ..
    } = *state;
    writeln!(out, "{TITLE}\nedition {edition}\npages {pages}").map_err(failed)?;
    if oldest > 0 {
        let settings = all(bytes, oldest).map_err(refused)?.into_iter();
        let settings = settings.map(|(key, value)| (key, Change::Added(value)));
        writeln!(out, "oldest {oldest}").map_err(failed)?;
        version(&mut out, oldest, settings).map_err(failed)?;
    }
    let mut progress = Progress::of("versions");
    for next in oldest + 1..=current {
        let changes = difference(bytes, next - 1, next).map_err(refused)?;
        version(&mut out, next, changes).map_err(failed)?;
        progress.step((next - oldest) as usize, (current - oldest) as usize);
    }
    writeln!(out, "end {current}").map_err(failed)?;
    out.flush().map_err(failed)
}

/// A version's number, and what makes it.
fn version(
    out: &mut impl Write,
    number: u32,
    changes: impl IntoIterator<Item = (u32, Change)>,
) -> io::Result<()> {
    writeln!(out, "version {number}")?;
    for (key, change) in changes {
        match change {
            Change::Removed(_) => writeln!(out, "unset {key}")?,
            Change::Added(value) | Change::Changed(_, value) => writeln!(out, "set {key} {value}")?,
        }
    }
    Ok(())
}

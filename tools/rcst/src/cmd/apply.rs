//! One release from lines on standard input.

use super::{diff, Command};
use crate::change;
use crate::fault::Fault;
use crate::line::{Form, Line};
use crate::names::Names;
use crate::progress::Progress;
use crate::release::release;
use crate::standard;
use crate::store::difference;

pub const COMMAND: Command = Command {
    name: "apply",
    usage: "apply FILE [--names F] [--dry-run] < CHANGES",
    does: "one release from lines 'set KEY VALUE', 'unset KEY': all or nothing",
    more: "Writes the number of the new version. One line that is refused refuses the release, and the file is as\nit was. 'unset' of a setting that is not there is refused with 11; lines that change nothing, with 15. An\nempty line, or one that begins with #, says nothing. --dry-run writes what would differ, and leaves the file\nalone.",
    run,
};

fn run(mut line: Line) -> Result<u8, Fault> {
    let path = line.only_file()?;
    let names = Names::of(line.names.as_deref())?;
    // before any file is touched
    let text = standard::input()?;
    let mut changes = Vec::new();
    for (place, said) in text.lines().enumerate() {
        changes.extend(change::of(place + 1, said, &names)?);
    }
    let mut differences = Vec::new();
    let made = release(&path, line.dry, |store, version| {
        let mut progress = Progress::of("lines");
        for (done, said) in changes.iter().enumerate() {
            said.make(store, version, &names)?;
            progress.step(done + 1, changes.len());
        }
        let found = difference(store, version - 1, version);
        differences = found.map_err(|number| Fault::number("difference", number))?;
        Ok(())
    })?;
    match line.dry {
        true => diff::show(&differences, Form::Plain, &names)?,
        false => said(made)?,
    }
    Ok(0)
}

/// The number of the version that was made.
pub fn said(version: u32) -> Result<(), Fault> {
    standard::output(&format!("version {version}\n"))
}

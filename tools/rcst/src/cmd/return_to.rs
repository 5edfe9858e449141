//! Going back, as a release.

use super::{apply, diff, Command};
use crate::fault::Fault;
use crate::line::{Form, Line};
use crate::names::Names;
use crate::release::release;
use crate::state::within;
use crate::store::{difference, done};

pub const COMMAND: Command = Command {
    name: "return",
    usage: "return FILE V [--names F] [--dry-run]",
    does: "going back to version V, as a release",
    more: "Writes what differs from the current version, as 'rcst diff' does, then the number of the new version.\nThe versions between stay readable. 15 says that the settings are those of V already. --dry-run writes\nwhat would differ, and leaves the file alone.",
    run,
};

fn run(mut line: Line) -> Result<u8, Fault> {
    let (path, to) = line.file_and(Line::version, "V")?;
    let names = Names::of(line.names.as_deref())?;
    let made = release(&path, line.dry, |store, version| {
        let returned = done(format!("return to {to}"), rcst::return_to(store, to));
        returned.map_err(|fault| within(fault, store, &[to], |state| state.current))?;
        let found = difference(store, version - 1, version);
        let found = found.map_err(|number| Fault::number("difference", number))?;
        diff::show(&found, Form::Plain, &names)
    })?;
    if !line.dry {
        apply::said(made)?;
    }
    Ok(0)
}

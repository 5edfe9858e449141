//! What differs between two versions: the list that is signed.

use rcst::State;

use super::Command;
use crate::fault::Fault;
use crate::file;
use crate::line::{Form, Line};
use crate::names::Names;
use crate::rows::{Cell, Rows};
use crate::state::within;
use crate::store::{difference, Change};

pub const COMMAND: Command = Command {
    name: "diff",
    usage: "diff FILE A B [--names F] [--json | --csv]",
    does: "what differs from version A to version B: the list that is signed",
    more: "A line a difference, in key order: 'added KEY VALUE', 'removed KEY VALUE', 'changed KEY OLD NEW'. The\ntext of two committed versions is the same for as long as they are kept, byte for byte. Exit status: 0 if nothing differs,\n1 if something does, as diff's; a file of wrong length gives 65 here.",
    run,
};

fn run(line: Line) -> Result<u8, Fault> {
    compare(line).map_err(Fault::kept_from_one)
}

fn compare(mut line: Line) -> Result<u8, Fault> {
    let path = line.file()?;
    let old = line.version("A")?;
    let new = line.version("B")?;
    line.end()?;
    let names = Names::of(line.names.as_deref())?;
    let bytes = file::read(&path)?;
    let differences = difference(&bytes, old, new);
    let differences = differences.map_err(|number| {
        let fault = Fault::number(path.display(), number);
        within(fault, &bytes, &[old, new], State::last)
    })?;
    show(&differences, line.form, &names)?;
    Ok(u8::from(!differences.is_empty()))
}

/// Writes the list; a key without a name refuses the whole of it.
pub fn show(differences: &[(u32, Change)], form: Form, names: &Names) -> Result<(), Fault> {
    differences
        .iter()
        .try_for_each(|(key, _)| names.known(*key))?;
    let mut rows = Rows::new(form, &["change", "key", "old", "new"])?;
    for (key, change) in differences {
        let (kind, old, new) = match *change {
            Change::Added(new) => ("added", None, Some(new)),
            Change::Removed(old) => ("removed", Some(old), None),
            Change::Changed(old, new) => ("changed", Some(old), Some(new)),
        };
        let mut plain = format!("{kind} {}", names.shown_key(*key));
        for value in [old, new].into_iter().flatten() {
            plain += &format!(" {}", names.shown(*key, value));
        }
        let cell = |value: Option<u32>| value.map_or(Cell::None, |value| names.cell(*key, value));
        let cells = [
            Cell::Text(kind.into()),
            names.key_cell(*key),
            cell(old),
            cell(new),
        ];
        rows.row(&plain, &cells)?;
    }
    rows.end()
}

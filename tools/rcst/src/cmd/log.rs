//! A line a version: how many settings it added, removed and changed.

use rcst::State;

use super::Command;
use crate::fault::Fault;
use crate::file;
use crate::line::Line;
use crate::rows::{Cell, Rows};
use crate::state::state;
use crate::store::{difference, Change};

pub const COMMAND: Command = Command {
    name: "log",
    usage: "log FILE [-n N] [--json | --csv]",
    does: "a line a version: added, removed, changed",
    more: "The newest version comes first; -n N shows the newest N. An open update is not shown. Of a pruned store the\nlast line is the oldest version's: what it changed is gone with the one before it.",
    run,
};

fn run(mut line: Line) -> Result<u8, Fault> {
    let path = line.only_file()?;
    let bytes = file::read(&path)?;
    let refused = |number| Fault::number(path.display(), number);
    let State {
        current, oldest, ..
    } = state(&bytes).map_err(refused)?;
    // version 0 changes nothing, and is not shown
    let first = oldest.max(1);
    let most = line.most.unwrap_or(usize::MAX);
    let mut rows = Rows::new(line.form, &["version", "added", "removed", "changed"])?;
    for version in (first..=current).rev().take(most) {
        if version == oldest {
            let plain = format!("version {version}: the oldest that is kept");
            let none = [Cell::number(version), Cell::None, Cell::None, Cell::None];
            rows.row(&plain, &none)?;
            continue;
        }
        let [added, removed, changed] = counted(&bytes, version).map_err(refused)?;
        let plain = match added + removed + changed {
            0 => format!("version {version}: nothing changed"),
            _ => format!("version {version}: {added} added, {removed} removed, {changed} changed"),
        };
        let cells = [version as usize, added, removed, changed].map(Cell::number);
        rows.row(&plain, &cells)?;
    }
    rows.end()?;
    Ok(0)
}

fn counted(bytes: &[u8], version: u32) -> Result<[usize; 3], u32> {
    let mut counts = [0; 3];
    for (_, change) in difference(bytes, version - 1, version)? {
        counts[match change {
            Change::Added(_) => 0,
            Change::Removed(_) => 1,
            Change::Changed(..) => 2,
        }] += 1;
    }
    Ok(counts)
}

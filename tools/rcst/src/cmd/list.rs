//! The settings of a version, in key order.

use rcst::limits::HIGHEST_KEY;
use rcst::State;

use super::Command;
use crate::fault::Fault;
use crate::file;
use crate::line::Line;
use crate::names::Names;
use crate::rows::Rows;
use crate::state::{current, within};

pub const COMMAND: Command = Command {
    name: "list",
    usage: "list FILE [@V] [LOW HIGH] [--names F] [--json | --csv]",
    does: "the settings of a version, in key order",
    more: "At version V, or at the current one; the keys from LOW to HIGH, both included, or all of them.\nWith V and without names it judges what it reads, else the whole store.",
    run,
};

fn run(mut line: Line) -> Result<u8, Fault> {
    let path = line.file()?;
    let at = line.at()?;
    let names = Names::of(line.names.as_deref())?;
    let (low, high) = match line.left() {
        0 => (0, HIGHEST_KEY),
        _ => (
            names.key(&line.text("LOW")?)?,
            names.key(&line.text("HIGH")?)?,
        ),
    };
    line.end()?;
    let bytes = file::read(&path)?;
    let refused = |number| Fault::number(path.display(), number);
    let version = at.map_or_else(|| current(&bytes), Ok).map_err(refused)?;
    let settings = match names.range(&bytes, low, high, version) {
        Ok(settings) => settings,
        Err(number) => {
            names.unknown(&bytes, low, high, version)?;
            return Err(within(refused(number), &bytes, &[version], State::last));
        }
    };
    let mut rows = Rows::new(line.form, &["key", "value"])?;
    for (key, value) in settings {
        let plain = format!("{} {}", names.shown_key(key), names.shown(key, value));
        rows.row(&plain, &[names.key_cell(key), names.cell(key, value)])?;
    }
    rows.end()?;
    Ok(0)
}

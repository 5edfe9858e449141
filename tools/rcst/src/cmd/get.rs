//! The value of one setting at a version.

use rcst::State;

use super::Command;
use crate::fault::Fault;
use crate::file;
use crate::line::{number, Line};
use crate::names::Names;
use crate::rows::{Cell, Rows};
use crate::state::{current, within};

pub const COMMAND: Command = Command {
    name: "get",
    usage: "get FILE KEY[@V] [--names F] [--json | --csv]",
    does: "a setting's value, or 'absent'",
    more: "At version V, or at the current one. An absent setting is an answer, so the exit status is 0.\nWith V it judges what it reads, without V the whole store.",
    run,
};

fn run(mut line: Line) -> Result<u8, Fault> {
    let (path, word) = line.file_and(Line::text, "KEY")?;
    let names = Names::of(line.names.as_deref())?;
    let (word, at) = match word.rsplit_once('@') {
        Some((word, at)) => (word, Some(number(at)?)),
        None => (&word[..], None),
    };
    let key = names.key(word)?;
    let bytes = file::read(&path)?;
    let refused = |number| Fault::number(path.display(), number);
    let version = at.map_or_else(|| current(&bytes), Ok).map_err(refused)?;
    let value = names.lookup(&bytes, key, version);
    let value = value.map_err(|number| within(refused(number), &bytes, &[version], State::last))?;
    let shown = value.map_or("absent".into(), |value| names.shown(key, value));
    let cell = value.map_or(Cell::None, |value| names.cell(key, value));
    let mut rows = Rows::new(line.form, &["key", "version", "value"])?;
    rows.row(&shown, &[names.key_cell(key), Cell::number(version), cell])?;
    rows.end()?;
    Ok(0)
}

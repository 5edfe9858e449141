//! When a setting was changed.

use super::Command;
use crate::fault::Fault;
use crate::file;
use crate::line::Line;
use crate::names::Names;
use crate::rows::{Cell, Rows};
use crate::store::life;

pub const COMMAND: Command = Command {
    name: "life",
    usage: "life FILE KEY [--names F] [--json | --csv]",
    does: "every stretch of versions in which a setting held one value",
    more: "Oldest first. 'from 1 to 4: 7' holds at versions 1, 2, 3 and 4; 'from 5 on: 9' holds still. In JSON and\nCSV 'end' is the first version behind the stretch, and nothing where it holds still. An open update is\nnot shown.",
    run,
};

fn run(mut line: Line) -> Result<u8, Fault> {
    let (path, word) = line.file_and(Line::text, "KEY")?;
    let names = Names::of(line.names.as_deref())?;
    let key = names.key(&word)?;
    let bytes = file::read(&path)?;
    let stretches = life(&bytes, key).map_err(|number| Fault::number(path.display(), number))?;
    let mut rows = Rows::new(line.form, &["start", "end", "value"])?;
    for stretch in stretches {
        let shown = names.shown(key, stretch.value);
        let plain = match stretch.end {
            Some(end) => format!("from {} to {}: {shown}", stretch.start, end - 1),
            None => format!("from {} on: {shown}", stretch.start),
        };
        let end = stretch.end.map_or(Cell::None, Cell::number);
        rows.row(
            &plain,
            &[
                Cell::number(stretch.start),
                end,
                names.cell(key, stretch.value),
            ],
        )?;
    }
    rows.end()?;
    Ok(0)
}

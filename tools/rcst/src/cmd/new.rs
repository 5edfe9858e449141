//! A fresh store in a file that was not there.

use super::Command;
use crate::fault::Fault;
use crate::file;
use crate::fresh::fresh;
use crate::line::Line;

pub const COMMAND: Command = Command {
    name: "new",
    usage: "new FILE PAGES [--edition 2]",
    does: "makes a store; never over an existing file",
    more: "PAGES is 6 to 4,096, of 256 bytes each, or of 512 with --edition 2. A fresh store is version 0, with no settings.",
    run,
};

fn run(mut line: Line) -> Result<u8, Fault> {
    let (path, pages) = line.file_and(Line::number, "PAGES")?;
    let store = fresh(pages as usize, line.edition.unwrap_or(1))?;
    file::make(&path, &store)?;
    Ok(0)
}

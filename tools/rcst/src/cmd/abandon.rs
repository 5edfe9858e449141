//! Ends an update that a crash left open.

use super::Command;
use crate::fault::Fault;
use crate::file;
use crate::line::Line;
use crate::store::done;

pub const COMMAND: Command = Command {
    name: "abandon",
    usage: "abandon FILE",
    does: "ends an update that a crash left open",
    more: "The store is then, byte for byte, what it was before the update was opened. 7 says that none was open.",
    run,
};

fn run(mut line: Line) -> Result<u8, Fault> {
    let path = line.only_file()?;
    let (held, mut store) = file::take(&path)?;
    done("abandon", rcst::abandon(&mut store)).map_err(|fault| fault.in_file(&path))?;
    held.replace(&store)?;
    Ok(0)
}

//! A store of edition 2 whose committed versions read as those of one of edition 1.

use super::Command;
use crate::fault::Fault;
use crate::file;
use crate::fresh;
use crate::line::Line;
use crate::progress;
use crate::store::done;

pub const COMMAND: Command = Command {
    name: "convert",
    usage: "convert FILE TO PAGES",
    does: "makes a store of edition 2 of one of edition 1; never over an existing file",
    more: "Every committed version reads the same in TO, which has PAGES pages of 512 bytes. FILE stays as it is. With\n12 or 13 TO is not made: take more pages, or fewer versions.",
    run,
};

fn run(mut line: Line) -> Result<u8, Fault> {
    let path = line.file()?;
    let to = line.file()?;
    let pages = line.number("PAGES")? as usize;
    line.end()?;
    let source = file::read(&path)?;
    let mut target = fresh::second(pages);
    progress::say("each version is replayed; this may take a while");
    done("convert", rcst::convert(&source, &mut target)).map_err(|fault| fault.in_file(&path))?;
    file::make(&to, &target)?;
    Ok(0)
}

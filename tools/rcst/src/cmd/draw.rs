//! The picture of a store.

use rcst::number::VERSION_ABOVE_LAST;
use rcst::State;

use super::Command;
use crate::fault::Fault;
use crate::file;
use crate::line::Line;
use crate::picture;
use crate::standard;
use crate::state::{state, within};

pub const COMMAND: Command = Command {
    name: "draw",
    usage: "draw FILE [-o OUT.svg] [--tree [@V]]",
    does: "a picture: leaf pages over keys and versions, or one version's tree",
    more: "Keys stand in order from left to right, versions downward. Each leaf page is a box with its number, for\nas long as it lived; a dot is where a setting gets a value, a bar where it ends. --tree draws the pages of\nversion V, or of the current one, from the root down. Of a\npruned store versions begin at the oldest. Without -o the picture goes to standard output.",
    run,
};

fn run(mut line: Line) -> Result<u8, Fault> {
    let path = line.file()?;
    let at = line.at()?;
    line.end()?;
    let bytes = file::read(&path)?;
    let refused = |number| Fault::number(path.display(), number);
    let state = state(&bytes).map_err(refused)?;
    let svg = match line.tree {
        true => {
            let version = at.unwrap_or(state.current);
            if !(state.oldest..=state.last()).contains(&version) {
                let fault = refused(VERSION_ABOVE_LAST);
                return Err(within(fault, &bytes, &[version], State::last));
            }
            picture::tree::drawn(&bytes, version)
        }
        false => picture::leaves::drawn(&bytes),
    };
    match line.output {
        Some(out) => file::tell(&path, &out, &svg)?,
        None => standard::output(&svg)?,
    }
    Ok(0)
}

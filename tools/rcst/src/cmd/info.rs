//! What a store is like, in words.

use rcst::limits::HIGHEST_VERSION;
use rcst::State;

use super::Command;
use crate::fault::Fault;
use crate::file;
use crate::line::Line;
use crate::rows::{Cell, Rows};
use crate::state::{most_roots, state};
use crate::store;

pub const COMMAND: Command = Command {
    name: "info",
    usage: "info FILE [--json | --csv]",
    does: "version, the oldest, open or not, pages, roots, and what still fits",
    more: "A store that is not sound is refused with its number; 'rcst check' says where.",
    run,
};

fn run(mut line: Line) -> Result<u8, Fault> {
    let path = line.only_file()?;
    let bytes = file::read(&path)?;
    let refused = |number| Fault::number(path.display(), number);
    let state = state(&bytes).map_err(refused)?;
    let settings = store::all(&bytes, state.current).map_err(refused)?.len();
    let mut rows = Rows::new(line.form, &["what", "number"])?;
    for (what, number, words) in told(&state, settings) {
        rows.row(&words, &[Cell::Text(what.into()), Cell::number(number)])?;
    }
    rows.end()?;
    Ok(0)
}

/// A name, a number and words for each thing there is to say.
fn told(state: &State, settings: usize) -> Vec<(&'static str, u32, String)> {
    let State {
        pages,
        current,
        roots,
        edition,
        free,
        open,
        oldest,
    } = *state;
    let version = format!("version {current}, with {settings} settings");
    let releases = HIGHEST_VERSION - current;
    let numbered = format!("{releases} more releases can be numbered");
    vec![
        ("edition", edition, format!("edition {edition}")),
        ("version", current, version),
        ("oldest", oldest, kept(oldest)),
        ("open", open, opened(state)),
        ("pages", pages, shared(pages, free)),
        ("free", free, fits(free)),
        ("roots", roots, moves(roots, most_roots(state))),
        ("releases", releases, numbered),
    ]
}

fn kept(oldest: u32) -> String {
    match oldest {
        0 => "every version is kept".into(),
        _ => format!("versions from {oldest} on are kept, those before were pruned"),
    }
}

fn opened(state: &State) -> String {
    match state.is_open() {
        true => format!(
            "an update is open: version {}, not yet a release",
            state.last()
        ),
        false => "no update is open".into(),
    }
}

fn shared(pages: u32, free: u32) -> String {
    let used = pages - 5 - free;
    format!("{pages} pages: 5 for header and directory, {used} used, {free} free")
}

/// A page that a change leaves in its place takes no free one. One that is rebuilt
/// takes one or two; so does each page above it, and a root that splits one more.
fn fits(free: u32) -> String {
    match free {
        0 => "no page is free: a change fits where its page has room, and else gives 12".into(),
        1..=14 => format!("{free} free: a change that rebuilds many pages may give 12"),
        _ => format!("{free} free: any one change fits (none takes more than 15)"),
    }
}

fn moves(roots: u32, most: u32) -> String {
    let left = match most - roots {
        0 => "a release that moves the root gives 13".into(),
        1 => "one more release may move the root".into(),
        left => format!("{left} more releases may move the root"),
    };
    format!("{roots} of {most} roots used: {left}")
}

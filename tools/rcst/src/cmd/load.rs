//! A store made of a dump's text: equal answers at every version.

use std::iter::{Enumerate, Peekable};
use std::ops::RangeInclusive;

use rcst::limits::HIGHEST_VERSION;

use super::dump::TITLE;
use super::Command;
use crate::change;
use crate::fault::Fault;
use crate::file;
use crate::fresh::fresh;
use crate::line::{number, Line};
use crate::names::Names;
use crate::passed;
use crate::progress::Progress;
use crate::standard;
use crate::store::done;

pub const COMMAND: Command = Command {
    name: "load",
    usage: "load FILE [--pages N] < TEXT",
    does: "a new store from a dump's text; never over an existing file",
    more: "The store has as many pages as the dumped one, or N. Every version is made as a release, so a text with\nan empty version (from before 2026-05) is refused with 15, and one with bench keys with 5. Of a store that was\npruned the versions before the oldest are made too, with a setting of no meaning, and dropped again.",
    run,
};

fn run(mut line: Line) -> Result<u8, Fault> {
    let path = line.only_file()?;
    let text = standard::input()?;
    let store = loaded(&text, line.pages)?;
    file::make(&path, &store)?;
    Ok(0)
}

/// The versions that a store may have been pruned to, but for 0.
const IN_USE: RangeInclusive<u32> = 1..=HIGHEST_VERSION;

/// The lines of a text, with their numbers.
struct Text<'a> {
    lines: Peekable<Enumerate<std::str::Lines<'a>>>,
}

impl<'a> Text<'a> {
    fn next(&mut self) -> Result<(usize, &'a str), Fault> {
        match self.lines.next() {
            Some((place, line)) => Ok((place + 1, line)),
            None => Err(Fault::data("the text ends before its last line, 'end'")),
        }
    }

    /// The number behind a word, in the next line.
    fn number(&mut self, word: &str) -> Result<u32, Fault> {
        let (place, line) = self.next()?;
        after(line, word).ok_or_else(|| wrong(place, line))
    }

    /// The oldest version, if the next line says one; else 0.
    fn oldest(&mut self) -> u32 {
        let said = |line: &str| after(line, "oldest").filter(|oldest| IN_USE.contains(oldest));
        match self.lines.next_if(|(_, line)| said(line).is_some()) {
            Some((_, line)) => said(line).unwrap_or_default(),
            None => 0,
        }
    }
}

fn after(line: &str, word: &str) -> Option<u32> {
    let rest = line.strip_prefix(word)?.strip_prefix(' ')?;
    number(rest).ok()
}

fn wrong(place: usize, line: &str) -> Fault {
    Fault::data(format!("line {place}: {line}: not what a dump has there"))
}

fn loaded(text: &str, pages: Option<usize>) -> Result<Vec<u8>, Fault> {
    let mut lines = Text {
        lines: text.lines().enumerate().peekable(),
    };
    let (place, title) = lines.next()?;
    if title != TITLE {
        return Err(wrong(place, title));
    }
    let edition = lines.number("edition")?;
    let dumped = lines.number("pages")? as usize;
    let mut store = fresh(pages.unwrap_or(dumped), edition)?;
    let oldest = lines.oldest();
    if oldest > 0 {
        // of edition 1 no store is pruned
        done(format!("oldest {oldest}"), rcst::prune(&mut store, 0))?;
        passed::pass(&mut store, oldest, text).map_err(roomier)?;
    }
    releases(&mut store, &mut lines, oldest, text.lines().count())?;
    match lines.lines.next() {
        None => Ok(store),
        Some((place, line)) => Err(wrong(place + 1, line)),
    }
}

/// Makes each version from the oldest on, up to the line that ends the text.
fn releases(store: &mut [u8], text: &mut Text, oldest: u32, many: usize) -> Result<(), Fault> {
    let names = Names::none();
    let mut progress = Progress::of("lines");
    let before = oldest.saturating_sub(1);
    let mut version = before;
    loop {
        let (place, line) = text.next()?;
        progress.step(place, many);
        let open = version > before;
        if after(line, "version") == Some(version + 1) {
            if open {
                commit(store, version, oldest)?;
            }
            version += 1;
            done(line, rcst::open(store))?;
            if version == oldest {
                passed::end(store, oldest).map_err(roomier)?;
            }
        } else if open && after(line, "end") == Some(version) {
            return commit(store, version, oldest);
        } else if version == 0 && line == "end 0" {
            return Ok(());
        } else {
            match change::of(place, line, &names)? {
                Some(said) if open => said.make(store, version, &names).map_err(roomier)?,
                _ => return Err(wrong(place, line)),
            }
        }
    }
}

fn commit(store: &mut [u8], version: u32, oldest: u32) -> Result<(), Fault> {
    let made = |given| done(format!("version {version}"), given);
    made(rcst::commit(store))?;
    match version == oldest {
        true => made(rcst::prune(store, oldest)),
        false => Ok(()),
    }
}

fn roomier(fault: Fault) -> Fault {
    match fault.status {
        12 => fault.but("--pages N makes a larger store"),
        _ => fault,
    }
}

//! A text of settings as people write one, read into the table of kinds that
//! [`naming`] is lent: one setting a line, its key, name, kind, lowest, highest
//! and unit.
//!
//! `examples/settings.txt` is one. Words stand apart by blanks; a line that is
//! empty or begins with `#` says nothing. A switch has no limits, and a unit may
//! be left out. Keys rise from line to line, and no name stands twice.

use crate::naming;

#[derive(Clone, Copy, Debug, PartialEq, Eq)]
pub enum Kind {
    Whole,
    Switch,
    Level,
}

/// A setting as people know it, and its row of the table: key, kind, lowest,
/// highest.
#[derive(Clone, Copy, Debug, PartialEq, Eq)]
pub struct Setting<'a> {
    pub name: &'a str,
    pub kind: Kind,
    pub unit: &'a str,
    pub row: [u32; 4],
}

/// What is wrong, and in which line, counted from 1.
#[derive(Clone, Debug, PartialEq, Eq)]
pub struct Fault {
    pub line: usize,
    pub what: &'static str,
}

/// Writes the rows of a text to the table, and gives their count, or the text's
/// first fault. The limits are judged by the library, as it will judge values by
/// them. A text has no more settings than lines.
pub fn table(text: &str, table: &mut [u32]) -> Result<usize, Fault> {
    let mut count = 0;
    for (line, read) in lines(text) {
        let fault = |what| Fault { line, what };
        let setting = read.map_err(fault)?;
        let earlier = || settings(text).take(count);
        if earlier().any(|other| other.name == setting.name) {
            return Err(fault("a name twice"));
        }
        let row = table.get_mut(4 * count..4 * count + 4);
        let row = row.ok_or(fault("more settings than the table has room for"))?;
        row.copy_from_slice(&setting.row);
        count += 1;
    }
    match naming::kinds_check(&table[..4 * count]) {
        0 => Ok(count),
        row => Err(Fault {
            line: lines(text).nth(row - 1).map_or(0, |(line, _)| line),
            what: "a key that is too large or does not rise, or limits that are not in order",
        }),
    }
}

/// The settings of a text in which [`table`] finds no fault, row by row.
pub fn settings(text: &str) -> impl Iterator<Item = Setting<'_>> {
    lines(text).filter_map(|(_, read)| read.ok())
}

/// The lines that say something, with their numbers.
fn lines(text: &str) -> impl Iterator<Item = (usize, Result<Setting<'_>, &'static str>)> {
    let says = |(_, line): &(usize, &str)| {
        let mut words = line.split_whitespace();
        words.next().is_some_and(|word| !word.starts_with('#'))
    };
    let lines = text.lines().enumerate().filter(says);
    lines.map(|(place, line)| (place + 1, setting_of(line)))
}

fn setting_of(line: &str) -> Result<Setting<'_>, &'static str> {
    let mut words = line.split_whitespace();
    let (Some(key), Some(name), Some(word)) = (words.next(), words.next(), words.next()) else {
        return Err("no key, name and kind");
    };
    if name.bytes().all(|byte| byte.is_ascii_digit()) {
        return Err("a name that is a number");
    }
    let key = whole(key)?;
    let mut limit = || words.next().ok_or("no limits");
    let (kind, row) = match word {
        "whole" => (Kind::Whole, [key, 0, whole(limit()?)?, whole(limit()?)?]),
        "switch" => (Kind::Switch, [key, 1, 0, 0]),
        "level" => (Kind::Level, [key, 2, level(limit()?)?, level(limit()?)?]),
        _ => return Err("a kind that is none"),
    };
    let unit = words.next().unwrap_or_default();
    match words.next() {
        Some(_) => Err("words behind the unit"),
        None => Ok(Setting {
            name,
            kind,
            unit,
            row,
        }),
    }
}

fn whole(word: &str) -> Result<u32, &'static str> {
    if word.bytes().all(|byte| byte.is_ascii_digit()) {
        word.parse().map_err(|_| "a number above 4,294,967,295")
    } else {
        Err("a number that is none")
    }
}

/// A float as Rust writes them: the nearest one, so a NaN and infinities too.
fn level(word: &str) -> Result<u32, &'static str> {
    let level: f32 = word.parse().map_err(|_| "a level that is no number")?;
    Ok(level.to_bits())
}

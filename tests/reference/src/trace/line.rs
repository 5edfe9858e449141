//! What a line of a trace says.

use std::fmt;

use crate::console::parse_number;
use crate::engine::Call;

/// More pages than a store may have, so that a length too large can be lent.
pub const MOST_PAGES: u32 = 5000;
/// No call writes as many numbers.
pub const LONGEST_LIST: u32 = 1_000_000;

#[derive(Clone, Copy, Debug, PartialEq, Eq)]
pub enum Line {
    /// Lends this many pages and makes a fresh store of edition 1 in them.
    Store(u32),
    /// The same of edition 2.
    StoreSecond(u32),
    /// A call on the lent bytes; how long its list is, the session says.
    Call(Call),
    /// Insert as before 2026-06: key and value.
    RawInsert(u32, u32),
    /// Commit as before 2026-05.
    RawCommit,
    /// Converts the store into a target of this many pages.
    Convert(u32),
    /// The last target becomes the store.
    Swap,
    /// The caller's list holds this many numbers from now on.
    List(u32),
    /// A byte's place and what it becomes.
    Byte(u32, u8),
    /// The lent bytes become their first so many.
    Cut(u32),
}

/// The line that these bytes say, or nothing for a malformed one.
pub fn parse(text: &[u8]) -> Option<Line> {
    // Two spaces in a row, or one at an end, make an empty word, which is
    // neither a word nor a number.
    let mut words = text.split(|byte| *byte == b' ');
    let word = words.next()?;
    let numbers: Option<Vec<u32>> = words.map(parse_number).collect();
    let numbers = numbers?;
    own_line(word, &numbers).or_else(|| call(word, &numbers).map(Line::Call))
}

fn own_line(word: &[u8], numbers: &[u32]) -> Option<Line> {
    match (word, numbers) {
        (b"store", [pages]) => (*pages <= MOST_PAGES).then_some(Line::Store(*pages)),
        (b"store2", [pages]) => (*pages <= MOST_PAGES).then_some(Line::StoreSecond(*pages)),
        (b"convert", [pages]) => (*pages <= MOST_PAGES).then_some(Line::Convert(*pages)),
        (b"swap", []) => Some(Line::Swap),
        (b"rawinsert", [key, value]) => Some(Line::RawInsert(*key, *value)),
        (b"rawcommit", []) => Some(Line::RawCommit),
        (b"list", [length]) => (*length <= LONGEST_LIST).then_some(Line::List(*length)),
        (b"byte", [at, byte]) => Some(Line::Byte(*at, u8::try_from(*byte).ok()?)),
        (b"cut", [length]) => Some(Line::Cut(*length)),
        _ => None,
    }
}

fn call(word: &[u8], numbers: &[u32]) -> Option<Call> {
    let call = match (word, numbers) {
        (b"open", []) => Call::Open,
        (b"commit", []) => Call::Commit,
        (b"abandon", []) => Call::Abandon,
        (b"return", [version]) => Call::Return(*version),
        (b"prune", [version]) => Call::Prune(*version),
        (b"check", []) => Call::Check,
        (b"state", []) => Call::State,
        (b"insert", [key, value]) => Call::Insert(*key, *value),
        (b"delete", [key]) => Call::Delete(*key),
        (b"get", [key, version]) => Call::Lookup(*key, *version),
        (b"range", [low, high, version]) => Call::Range(*low, *high, *version, 0),
        (b"diff", [old, new]) => Call::Difference(*old, *new, 0),
        (b"life", [key]) => Call::Life(*key, 0),
        (b"visits", [key, version]) => Call::Visits(*key, *version, 0),
        _ => return None,
    };
    Some(call)
}

impl fmt::Display for Line {
    fn fmt(&self, to: &mut fmt::Formatter) -> fmt::Result {
        match *self {
            Line::Store(pages) => write!(to, "store {pages}"),
            Line::StoreSecond(pages) => write!(to, "store2 {pages}"),
            Line::Convert(pages) => write!(to, "convert {pages}"),
            Line::Swap => write!(to, "swap"),
            Line::RawInsert(key, value) => write!(to, "rawinsert {key} {value}"),
            Line::RawCommit => write!(to, "rawcommit"),
            Line::List(length) => write!(to, "list {length}"),
            Line::Byte(at, byte) => write!(to, "byte {at} {byte}"),
            Line::Cut(length) => write!(to, "cut {length}"),
            Line::Call(call) => write_call(call, to),
        }
    }
}

fn write_call(call: Call, to: &mut fmt::Formatter) -> fmt::Result {
    match call {
        // Lending bytes and making them fresh is one line, with their length.
        Call::Fresh => write!(to, "store"),
        Call::FreshSecond => write!(to, "store2"),
        Call::Open => write!(to, "open"),
        Call::Commit => write!(to, "commit"),
        Call::Abandon => write!(to, "abandon"),
        Call::Return(version) => write!(to, "return {version}"),
        Call::Prune(version) => write!(to, "prune {version}"),
        Call::Check => write!(to, "check"),
        Call::State => write!(to, "state"),
        Call::Insert(key, value) => write!(to, "insert {key} {value}"),
        Call::Delete(key) => write!(to, "delete {key}"),
        Call::Lookup(key, version) => write!(to, "get {key} {version}"),
        Call::Range(low, high, version, _) => write!(to, "range {low} {high} {version}"),
        Call::Difference(old, new, _) => write!(to, "diff {old} {new}"),
        Call::Life(key, _) => write!(to, "life {key}"),
        Call::Visits(key, version, _) => write!(to, "visits {key} {version}"),
    }
}

//! The lines of a history: the console's, and four for calls that the console has
//! not. An empty line, or one that begins with `#`, says nothing.

use crate::fault::Fault;
use crate::line::number;

#[derive(Clone, Copy, Debug, PartialEq, Eq)]
pub enum Call {
    /// Pages.
    Store(u32),
    Open,
    /// Key and value.
    Insert(u32, u32),
    /// Key.
    Delete(u32),
    Commit,
    Abandon,
    /// Version.
    Return(u32),
    /// Version.
    Prune(u32),
    /// Key and version.
    Get(u32, u32),
    /// Low, high and version.
    Range(u32, u32, u32),
    /// The old version and the new one.
    Difference(u32, u32),
    /// Key.
    Life(u32),
}

/// A call, and the line that says it.
pub struct Said {
    pub line: usize,
    pub text: String,
    pub call: Call,
}

/// The calls of a text, or which line is none.
pub fn of(text: &str) -> Result<Vec<Said>, Fault> {
    let mut history = Vec::new();
    for (place, text) in text.lines().enumerate() {
        let words: Vec<&str> = text.split_whitespace().collect();
        if words.first().is_none_or(|word| word.starts_with('#')) {
            continue;
        }
        let (line, text) = (place + 1, words.join(" "));
        match call(words[0], &words[1..]) {
            Some(call) => history.push(Said { line, text, call }),
            None => return Err(Fault::data(format!("line {line}: {text}: no call"))),
        }
    }
    Ok(history)
}

fn call(word: &str, numbers: &[&str]) -> Option<Call> {
    let numbers: Option<Vec<u32>> = numbers.iter().map(|word| number(word).ok()).collect();
    Some(match (word, &numbers?[..]) {
        ("store", [pages]) => Call::Store(*pages),
        ("open", []) => Call::Open,
        ("insert", [key, value]) => Call::Insert(*key, *value),
        ("delete", [key]) => Call::Delete(*key),
        ("commit", []) => Call::Commit,
        ("abandon", []) => Call::Abandon,
        ("return", [version]) => Call::Return(*version),
        ("prune", [version]) => Call::Prune(*version),
        ("get", [key, version]) => Call::Get(*key, *version),
        ("range", [low, high, version]) => Call::Range(*low, *high, *version),
        ("diff", [old, new]) => Call::Difference(*old, *new),
        ("life", [key]) => Call::Life(*key),
        _ => return None,
    })
}

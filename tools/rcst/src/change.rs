//! The lines of a release: `set KEY VALUE` and `unset KEY`. An empty line, or one
//! that begins with `#`, says nothing.

use crate::fault::Fault;
use crate::names::Names;
use crate::store::done;

#[derive(Clone, Copy, Debug, PartialEq, Eq)]
pub enum Change {
    Set(u32, u32),
    Unset(u32),
}

/// A change, and the line that says it.
pub struct Said<'a> {
    pub line: usize,
    pub text: &'a str,
    pub change: Change,
}

/// What a line says, if it says something.
pub fn of<'a>(line: usize, text: &'a str, names: &Names) -> Result<Option<Said<'a>>, Fault> {
    let words: Vec<&str> = text.split_whitespace().collect();
    let placed = |mut fault: Fault| {
        fault.words = format!("line {line}: {}", fault.words);
        if fault.status == 64 {
            fault.status = 65;
        }
        fault
    };
    let change = match words[..] {
        [] => return Ok(None),
        [word, ..] if word.starts_with('#') => return Ok(None),
        ["set", key, value] => {
            let key = names.key(key).map_err(placed)?;
            Change::Set(key, names.value(key, value).map_err(placed)?)
        }
        ["unset", key] => Change::Unset(names.key(key).map_err(placed)?),
        _ => {
            let words = "neither 'set KEY VALUE' nor 'unset KEY'";
            return Err(placed(Fault::data(format!("{}: {words}", text.trim()))));
        }
    };
    let text = text.trim();
    Ok(Some(Said { line, text, change }))
}

impl Said<'_> {
    /// Makes the change in the open version. To change a setting is to end it and to
    /// set it anew; one that has the value already is left alone.
    pub fn make(&self, store: &mut [u8], version: u32, names: &Names) -> Result<(), Fault> {
        let made = |given| done(format!("line {}: {}", self.line, self.text), given);
        match self.change {
            Change::Unset(key) => made(names.delete(store, key)),
            Change::Set(key, value) => match rcst::lookup(store, key, version) {
                (0, true, old) if old == value => Ok(()),
                (0, true, _) => {
                    made(names.delete(store, key))?;
                    made(names.insert(store, key, value))
                }
                _ => made(names.insert(store, key, value)),
            },
        }
    }
}

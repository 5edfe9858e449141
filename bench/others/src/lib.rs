//! What each program here does with the lines of bench/morning.

use std::io;

use morning::lines::{done, looked, obey, parse, Command};

/// A store of settings with a history, as the lines of the mixes ask for it: no range is among them. A call that is
/// refused gives the console's number.
pub trait History {
    fn open(&mut self) -> Result<(), u32>;
    fn insert(&mut self, key: u32, value: u32) -> Result<(), u32>;
    fn delete(&mut self, key: u32) -> Result<(), u32>;
    fn commit(&mut self) -> Result<(), u32>;
    fn abandon(&mut self) -> Result<(), u32>;
    fn get(&mut self, key: u32, version: u32) -> Result<Option<u32>, u32>;
    /// The bytes that it keeps.
    fn bytes(&self) -> usize;
}

/// Where an update stands, for those who keep no version of their own.
#[derive(Default)]
pub struct Versions {
    pub current: u32,
    pub open: bool,
}

impl Versions {
    pub fn last(&self) -> u32 {
        self.current + u32::from(self.open)
    }

    pub fn begin(&mut self) -> Result<(), u32> {
        if self.open {
            return Err(8);
        }
        self.open = true;
        Ok(())
    }

    pub fn opened(&self) -> Result<u32, u32> {
        match self.open {
            true => Ok(self.last()),
            false => Err(7),
        }
    }

    pub fn end(&mut self, kept: bool) -> Result<(), u32> {
        self.opened()?;
        self.current += u32::from(kept);
        self.open = false;
        Ok(())
    }

    pub fn readable(&self, version: u32) -> Result<(), u32> {
        match version <= self.last() {
            true => Ok(()),
            false => Err(6),
        }
    }
}

fn answer<H: History>(
    made: &impl Fn(u32) -> Result<H, u32>,
    store: &mut Option<H>,
    line: &[u8],
    out: &mut Vec<u8>,
) {
    let command = parse(line);
    let kept = match (command, store) {
        (Some(Command::Store(pages)), store) => {
            let fresh = made(pages).map(|fresh| *store = Some(fresh));
            return done(out, fresh);
        }
        (Some(command), Some(kept)) => (command, kept),
        _ => return out.extend_from_slice(b"bad line\n"),
    };
    match kept {
        (Command::Open, store) => done(out, store.open()),
        (Command::Insert(key, value), store) => done(out, store.insert(key, value)),
        (Command::Delete(key), store) => done(out, store.delete(key)),
        (Command::Commit, store) => done(out, store.commit()),
        (Command::Abandon, store) => done(out, store.abandon()),
        (Command::Get(key, version), store) => looked(out, store.get(key, version)),
        (Command::Store(_) | Command::Range(..), _) => out.extend_from_slice(b"bad line\n"),
    }
}

/// The whole program. With the word `bytes` it says at the end, on standard error, how many it keeps.
pub fn run<H: History>(made: impl Fn(u32) -> Result<H, u32>) -> io::Result<()> {
    let mut store = None;
    obey(|line, out| answer(&made, &mut store, line, out))?;
    if let Some(store) = store.filter(|_| std::env::args().nth(1).as_deref() == Some("bytes")) {
        eprintln!("{}", store.bytes());
    }
    Ok(())
}

//! What long work says on a terminal, and nowhere else.

use std::io::{stderr, IsTerminal, Write};
use std::time::{Duration, Instant};

/// A sentence, if somebody sits there.
pub fn say(words: &str) {
    if stderr().is_terminal() {
        eprintln!("rcst: {words}");
    }
}

/// Milliseconds between two lines, unless RCST_PROGRESS says another number.
const USUAL: u64 = 200;

fn pause() -> Duration {
    let said = std::env::var("RCST_PROGRESS").ok();
    let number = said.and_then(|word| word.parse().ok());
    Duration::from_millis(number.unwrap_or(USUAL))
}

/// A line that is written over: what is done, and how far.
pub struct Progress {
    what: &'static str,
    shown: Option<Instant>,
    pause: Duration,
    seen: bool,
}

impl Progress {
    pub fn of(what: &'static str) -> Progress {
        let shown = stderr().is_terminal().then(Instant::now);
        Progress {
            what,
            shown,
            pause: pause(),
            seen: false,
        }
    }

    pub fn step(&mut self, done: usize, of: usize) {
        let Some(shown) = &mut self.shown else { return };
        if shown.elapsed() >= self.pause {
            *shown = Instant::now();
            self.seen = true;
            eprint!("\r{}: {done} of {of}", self.what);
            let _ = stderr().flush();
        }
    }
}

impl Drop for Progress {
    fn drop(&mut self) {
        if self.seen {
            eprint!("\r\x1b[K");
        }
    }
}

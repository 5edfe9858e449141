//! Console input from a seed: a history as lines, with bad lines among them.

use crate::engine::{Call, Engine, Reference};
use crate::history::{History, Kind};
use crate::layout::PAGE_BYTES;
use crate::rng::Rng;

/// `count` lines of console input, named by `seed`. The last line may lack
/// its newline.
pub fn lines(seed: u64, count: usize) -> Vec<u8> {
    let mut rng = Rng::new(seed ^ 0x11_4E5);
    let mut input = Vec::new();
    let mut session = Session::new(&mut rng);
    for _ in 0..count {
        let begun = !session.store.is_empty();
        if rng.once_in(20) {
            bad_line(&mut rng, &mut input);
        } else if begun && !rng.once_in(200) {
            session.line(&mut rng, &mut input);
        } else if rng.once_in(3) {
            refused_line(begun, &mut rng, &mut input);
        } else {
            session = Session::new(&mut rng);
            session.begin(&mut input);
        }
    }
    if rng.once_in(3) {
        input.pop();
    }
    input
}

/// A store made by a `store` line, and the history it goes through.
struct Session {
    history: History,
    pages: usize,
    store: Vec<u8>,
}

impl Session {
    fn new(rng: &mut Rng) -> Session {
        let pages = match rng.below(4) {
            0 => rng.between(6, 12),
            1 => rng.between(6, 256),
            2 => 256,
            _ => rng.between(12, 60),
        } as usize;
        let kinds = [Kind::Mixed, Kind::GrowThenShrink, Kind::HotPage];
        let kind = *rng.pick(&kinds).unwrap_or(&Kind::Mixed);
        Session {
            history: History::new(rng.draw(), kind, pages),
            pages,
            store: Vec::new(),
        }
    }

    /// The history's first call makes the store fresh.
    fn begin(&mut self, input: &mut Vec<u8>) {
        self.store = vec![0; self.pages * PAGE_BYTES];
        let call = self.next_call();
        self.write(call, input, None);
    }

    fn line(&mut self, rng: &mut Rng, input: &mut Vec<u8>) {
        let call = self.next_call();
        self.write(call, input, Some(rng));
    }

    /// The console has no line for a return or a prune, and none stands for
    /// them.
    fn next_call(&mut self) -> Call {
        loop {
            match self.history.next_call() {
                Call::Return(_) | Call::Prune(_) => continue,
                call => return call,
            }
        }
    }

    fn write(&mut self, call: Call, input: &mut Vec<u8>, rng: Option<&mut Rng>) {
        let mut list = vec![0; call.list_length()];
        let answer = Reference.apply(call, &mut self.store, &mut list);
        self.history.observe(call, &answer);
        let mut line = self.text(call);
        if let Some(rng) = rng.filter(|_| line.contains(' ')) {
            if rng.once_in(16) {
                // A leading zero is a digit like any other.
                line = line.replacen(' ', " 0", 1);
            }
        }
        input.extend(line.into_bytes());
        input.push(b'\n');
    }

    fn text(&self, call: Call) -> String {
        match call {
            Call::Fresh | Call::FreshSecond => format!("store {}", self.pages),
            // There is no line for these; a lookup stands for them.
            Call::Check
            | Call::State
            | Call::Difference(..)
            | Call::Life(..)
            | Call::Return(_)
            | Call::Prune(_) => {
                format!("get 0 {}", self.history.model().last())
            }
            Call::Open => "open".to_string(),
            Call::Insert(key, value) => format!("insert {key} {value}"),
            Call::Delete(key) => format!("delete {key}"),
            Call::Commit => "commit".to_string(),
            Call::Abandon => "abandon".to_string(),
            // Nor for a lookup's pages: the lookup itself stands for them.
            Call::Lookup(key, version) | Call::Visits(key, version, _) => {
                format!("get {key} {version}")
            }
            // The console's list is always long enough.
            Call::Range(low, high, version, _) => format!("range {low} {high} {version}"),
        }
    }
}

/// No store has these sizes.
const WRONG_SIZES: &[&str] = &[
    "store 5",
    "store 257",
    "store 0",
    "store 4294967295",
    "store 0000000257",
];

/// Refused while there is no store, whatever else is wrong with them.
const EARLY_LINES: &[&str] = &[
    "open",
    "commit",
    "get 16777216 9",
    "range 2 1 0",
    "delete 1",
];

fn refused_line(begun: bool, rng: &mut Rng, input: &mut Vec<u8>) {
    let lines = if begun || rng.once_in(2) {
        WRONG_SIZES
    } else {
        EARLY_LINES
    };
    input.extend(rng.pick(lines).unwrap_or(&"open").as_bytes());
    input.push(b'\n');
}

/// Lines that are never good ones.
const BAD_LINES: &[&str] = &[
    "",
    " ",
    "open ",
    " open",
    "Open",
    "OPEN",
    "open\r",
    "opened",
    "open 1",
    "commit 0",
    "abandon\t",
    "insert 1",
    "insert 1 2 3",
    "insert  1 2",
    "insert 1  2",
    "insert\t1 2",
    "insert 1 -2",
    "insert +1 2",
    "insert 1 4294967296",
    "insert 1 9999999999",
    "insert 1 00000000001",
    "insert 0x1 2",
    "insert 1 2.0",
    "insert 1 2;",
    "insert one 2",
    "delete",
    "delete ",
    "delete 1 ",
    "get 1",
    "get 1 2 3",
    "get , 1",
    "range 0 1",
    "range 0 1 2 3",
    "range 0 1 ",
    "store",
    "store 4294967296",
    "store 12345678901",
    "store -6",
    "check",
    "lookup 1 1",
    "fresh 16",
    "insert \u{661} 2",
    "\u{0}",
    "open\u{0}",
];

/// The table of bad lines, for tests.
pub fn bad_lines() -> &'static [&'static str] {
    BAD_LINES
}

fn bad_line(rng: &mut Rng, input: &mut Vec<u8>) {
    match rng.below(8) {
        0 => {
            // Over 80 bytes, be it ever so good before that.
            let length = rng.between(81, 300) as usize;
            let mut line = b"insert 1 2".to_vec();
            line.resize(length, b' ');
            input.extend(line);
        }
        1 => {
            let length = rng.below(90) as usize;
            let bytes = (0..length).map(|_| match rng.word() as u8 {
                b'\n' => b' ',
                byte => byte | 0x80,
            });
            input.extend(bytes);
        }
        _ => input.extend(rng.pick(BAD_LINES).unwrap_or(&"").as_bytes()),
    }
    input.push(b'\n');
}

//! The program of request 2026-11's comparison: the console's commands, with
//! one sorted list of settings for each version. It is written to be fast: a
//! line is read where it stands, `open` copies a list, and nothing is judged.
//! Its store has no pages, so that it never answers 12 or 13.

use std::io;

use morning::lines::{done, looked, obey, parse, put, say, Command};

const KEYS: u32 = 1 << 24;
/// Keys from here on belong to the test bench: insert refuses them.
const BENCH_KEYS: u32 = 16_776_960;
const LAST: usize = 1_048_574;

type List = Vec<(u32, u32)>;

struct Lists {
    versions: Vec<List>,
    open: bool,
}

fn place(list: &List, key: u32) -> Result<usize, usize> {
    list.binary_search_by_key(&key, |setting| setting.0)
}

impl Lists {
    fn open(&mut self) -> Result<(), u32> {
        if self.open {
            return Err(8);
        }
        if self.versions.len() > LAST {
            return Err(9);
        }
        let list = self.versions[self.versions.len() - 1].clone();
        self.versions.push(list);
        self.open = true;
        Ok(())
    }

    fn commit(&mut self) -> Result<(), u32> {
        if !self.open {
            return Err(7);
        }
        let last = self.versions.len() - 1;
        if self.versions[last] == self.versions[last - 1] {
            return Err(15);
        }
        self.open = false;
        Ok(())
    }

    fn abandon(&mut self) -> Result<(), u32> {
        if !self.open {
            return Err(7);
        }
        self.versions.pop();
        self.open = false;
        Ok(())
    }

    /// The open version's list, and where the key stands in it or would.
    fn opened(&mut self, key: u32, keys: u32) -> Result<(&mut List, Result<usize, usize>), u32> {
        if key >= keys {
            return Err(5);
        }
        if !self.open {
            return Err(7);
        }
        let list = self.versions.last_mut().expect("version 0");
        let found = place(list, key);
        Ok((list, found))
    }

    fn insert(&mut self, key: u32, value: u32) -> Result<(), u32> {
        match self.opened(key, BENCH_KEYS)? {
            (_, Ok(_)) => Err(10),
            (list, Err(at)) => {
                list.insert(at, (key, value));
                Ok(())
            }
        }
    }

    fn delete(&mut self, key: u32) -> Result<(), u32> {
        match self.opened(key, KEYS)? {
            (_, Err(_)) => Err(11),
            (list, Ok(at)) => {
                list.remove(at);
                Ok(())
            }
        }
    }

    fn at(&self, bad: bool, version: u32) -> Result<&List, u32> {
        if bad {
            return Err(5);
        }
        self.versions.get(version as usize).ok_or(6)
    }

    fn get(&self, key: u32, version: u32) -> Result<Option<u32>, u32> {
        let list = self.at(key >= KEYS, version)?;
        Ok(place(list, key).ok().map(|at| list[at].1))
    }

    fn range(&self, low: u32, high: u32, version: u32) -> Result<&[(u32, u32)], u32> {
        let list = self.at(low >= KEYS || high >= KEYS || low > high, version)?;
        let from = list.partition_point(|setting| setting.0 < low);
        let upto = list.partition_point(|setting| setting.0 <= high);
        Ok(&list[from..upto])
    }
}

fn ranged(out: &mut Vec<u8>, result: Result<&[(u32, u32)], u32>) {
    match result {
        Ok(found) => {
            say(out, b"count ", found.len() as u32);
            for &(key, value) in found {
                put(out, key);
                say(out, b" ", value);
            }
        }
        Err(number) => say(out, b"refused ", number),
    }
}

fn made(store: &mut Option<Lists>, pages: u32) -> Result<(), u32> {
    if !(6..=256).contains(&pages) {
        return Err(1);
    }
    *store = Some(Lists {
        versions: vec![List::new()],
        open: false,
    });
    Ok(())
}

fn answer(store: &mut Option<Lists>, line: &[u8], out: &mut Vec<u8>) {
    let Some(command) = parse(line) else {
        out.extend_from_slice(b"bad line\n");
        return;
    };
    if let Command::Store(pages) = command {
        return done(out, made(store, pages));
    }
    let Some(lists) = store else {
        return done(out, Err(1));
    };
    match command {
        Command::Store(_) => {}
        Command::Open => done(out, lists.open()),
        Command::Insert(key, value) => done(out, lists.insert(key, value)),
        Command::Delete(key) => done(out, lists.delete(key)),
        Command::Commit => done(out, lists.commit()),
        Command::Abandon => done(out, lists.abandon()),
        Command::Get(key, version) => looked(out, lists.get(key, version)),
        Command::Range(low, high, version) => ranged(out, lists.range(low, high, version)),
    }
}

fn main() -> io::Result<()> {
    let mut store = None;
    obey(|line, out| answer(&mut store, line, out))
}

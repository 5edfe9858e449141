//! Ten thousand updates that a store of 256 pages takes, in four mixes. The
//! independent program's calls run beside, so that every line is accepted:
//! none gives 12, 13 or 15. And the same mixes without end, on a store of edition 2.

use std::io::Write;

use reference::edition::SECOND;
use reference::rng::Rng;
use reference::{calls, number, store, unjudged};

pub const UPDATES: usize = 10_000;
const PAGES: usize = 256;
/// Keys below the test bench's.
const KEYS: u32 = 16_776_960;
const VALUES: u32 = 1 << 30;

/// How the updates go.
#[derive(Clone, Copy)]
pub enum Kind {
    /// One to three updates a version while there is room, then rounds of as
    /// many that are abandoned.
    Releases,
    /// Ten updates a round, half of the rounds abandoned.
    Steady,
    /// Some forty versions; each tries settings out and takes most of it back.
    Sessions,
    /// Eight rounds of 1,250 updates. Once the store is nearly full they try
    /// settings out, and a round that leaves nothing changed is abandoned.
    Bulk,
}

pub const KINDS: [(&str, Kind); 4] = [
    ("releases", Kind::Releases),
    ("steady", Kind::Steady),
    ("sessions", Kind::Sessions),
    ("bulk", Kind::Bulk),
];

/// At which versions is looked up.
#[derive(Clone, Copy)]
pub enum Spread {
    /// 400 lookups at one version, then as many at another.
    Runs,
    /// Each at a version of its own.
    Random,
}

pub struct Mix {
    kind: Kind,
    pub bytes: Vec<u8>,
    live: Vec<u32>,
    rng: Rng,
    pub lines: Vec<u8>,
    done: usize,
    /// So many updates are wanted.
    wanted: usize,
    /// Whether rounds mind how many pages are free; else they go on as if enough were.
    minds: bool,
    /// The number that stopped the last round, if one did.
    stopped: Option<u32>,
    /// The highest page that was ever in use.
    pub highest: u32,
    /// The keys alive at each version.
    pub versions: Vec<Vec<u32>>,
}

impl Mix {
    /// The mix, from a seed.
    pub fn new(kind: Kind, seed: u64) -> Mix {
        let mut mix = Mix::begun(kind, seed, vec![0; PAGES * 256]);
        assert_eq!(calls::fresh(&mut mix.bytes), number::DONE);
        mix.say(format_args!("store {PAGES}"));
        while mix.done < mix.wanted {
            mix.round();
        }
        mix
    }

    /// The same on a store of edition 2 with so many pages, round by round as the
    /// caller asks for them: no round minds how many of them are free.
    pub fn endless(kind: Kind, seed: u64, pages: usize) -> Mix {
        let mut mix = Mix::begun(kind, seed, vec![0; pages * SECOND.page_bytes]);
        store::write_fresh(&SECOND, &mut mix.bytes);
        (mix.wanted, mix.minds) = (usize::MAX, false);
        mix
    }

    fn begun(kind: Kind, seed: u64, bytes: Vec<u8>) -> Mix {
        Mix {
            kind,
            bytes,
            live: Vec::new(),
            rng: Rng::new(seed),
            lines: Vec::new(),
            done: 0,
            wanted: UPDATES,
            minds: true,
            stopped: None,
            highest: 5,
            versions: vec![Vec::new()],
        }
    }

    /// An update from its open to its end; the number that stopped it, if one did.
    pub fn round(&mut self) -> Option<u32> {
        match self.kind {
            Kind::Releases => self.release(),
            Kind::Steady => self.steady(),
            Kind::Sessions => self.session(),
            Kind::Bulk => self.bulk(),
        }
        self.stopped
    }

    /// The current version.
    pub fn current(&self) -> u32 {
        self.versions.len() as u32 - 1
    }

    /// The lookups behind the updates: four of five at keys that are alive.
    pub fn lookups(&mut self, count: usize, spread: Spread) -> Vec<u8> {
        let (mut lines, mut version, mut left) = (Vec::new(), 0, 0);
        for _ in 0..count {
            if left == 0 {
                version = self.rng.below(self.versions.len() as u32) as usize;
                left = match spread {
                    Spread::Runs => 400,
                    Spread::Random => 1,
                };
            }
            left -= 1;
            let list = &self.versions[version];
            let key = if list.is_empty() || self.rng.below(5) == 0 {
                self.rng.below(KEYS)
            } else {
                list[self.rng.below(list.len() as u32) as usize]
            };
            writeln!(lines, "get {key} {version}").expect("memory");
        }
        lines
    }

    /// Roots in the directory, and free pages.
    pub fn shape(&self) -> (u32, usize) {
        (store::header(&self.bytes).roots, self.free())
    }

    fn say(&mut self, line: std::fmt::Arguments) {
        writeln!(self.lines, "{line}").expect("memory");
    }

    fn free(&self) -> usize {
        let pages = store::page_numbers(&self.bytes);
        let levels = pages.map(|page| store::level(&self.bytes, page));
        levels.filter(|level| *level == 0).count()
    }

    /// Whether more than so many pages are free, if that is minded.
    fn has_room(&self, pages: usize) -> bool {
        !self.minds || self.free() > pages
    }

    /// Behind an insert or delete that gave this number; whether it is done. The lowest
    /// free page is taken, so no page above one that never was in use is in use.
    fn is_done(&mut self, given: u32) -> bool {
        if given != number::DONE {
            self.stopped = Some(given);
            return false;
        }
        self.done += 1;
        let pages = store::page_count(&self.bytes);
        while self.highest + 1 < pages && store::level(&self.bytes, self.highest + 1) != 0 {
            self.highest += 1;
        }
        true
    }

    fn absent(&mut self) -> u32 {
        loop {
            let key = self.rng.below(KEYS);
            if self.live.binary_search(&key).is_err() {
                return key;
            }
        }
    }

    fn insert(&mut self, key: u32) -> bool {
        let value = self.rng.below(VALUES);
        let given = unjudged::insert(&mut self.bytes, key, value);
        if !self.is_done(given) {
            return false;
        }
        let at = self.live.binary_search(&key).expect_err("absent");
        self.live.insert(at, key);
        self.say(format_args!("insert {key} {value}"));
        true
    }

    fn delete(&mut self, at: usize) -> bool {
        let key = self.live[at];
        let given = unjudged::delete(&mut self.bytes, key);
        if !self.is_done(given) {
            return false;
        }
        self.live.remove(at);
        self.say(format_args!("delete {key}"));
        true
    }

    /// An insert where few are alive, a delete where many are, else either.
    fn update(&mut self, most: usize) -> bool {
        let few = self.live.len() < most / 2;
        if few || (self.live.len() < most && self.rng.below(2) == 0) {
            let key = self.absent();
            return self.insert(key);
        }
        let at = self.rng.below(self.live.len() as u32) as usize;
        self.delete(at)
    }

    /// A setting that is inserted and deleted again.
    fn tried_out(&mut self) {
        let key = self.absent();
        if self.insert(key) {
            let at = self.live.binary_search(&key).expect("inserted");
            self.delete(at);
        }
    }

    fn open(&mut self) {
        assert_eq!(unjudged::open(&mut self.bytes), number::DONE);
        self.stopped = None;
        self.say(format_args!("open"));
    }

    /// Kept as a version, if it is to be and anything changed.
    fn close(&mut self, keep: bool) {
        let keep = keep && (self.minds || self.stopped.is_none());
        if keep && unjudged::commit(&mut self.bytes) == number::DONE {
            self.say(format_args!("commit"));
            self.versions.push(self.live.clone());
            return;
        }
        assert_eq!(unjudged::abandon(&mut self.bytes), number::DONE);
        self.say(format_args!("abandon"));
        self.live = self.versions.last().expect("version 0").clone();
    }

    fn some(&mut self, updates: usize, most: usize, keep: bool) {
        self.open();
        for _ in 0..updates.min(self.wanted - self.done) {
            if !self.update(most) {
                break;
            }
        }
        self.close(keep);
    }

    fn release(&mut self) {
        let updates = 1 + self.rng.below(3) as usize;
        let keep = self.has_room(12);
        self.some(updates, 300, keep);
    }

    fn steady(&mut self) {
        let keep = self.has_room(20) && self.rng.below(2) == 0;
        self.some(10, 1000, keep);
    }

    fn session(&mut self) {
        self.open();
        let end = self.wanted.min(self.done + 220);
        while self.done + 1 < end && self.stopped.is_none() {
            self.tried_out();
        }
        for _ in 0..30 {
            if self.done < self.wanted && self.stopped.is_none() && self.has_room(12) {
                self.update(1200);
            }
        }
        self.close(true);
    }

    fn bulk(&mut self) {
        self.open();
        let end = self.wanted.min(self.done + 1250);
        while self.done < end && self.stopped.is_none() {
            if self.has_room(20) {
                self.update(1500);
            } else {
                self.tried_out();
            }
        }
        self.close(true);
    }
}

//! Rules 4 and 5, the way the crate `notes` finds them: one pass through time from
//! change to change, with a note for each page of what stands at and below it, and
//! up to which version it stays. Of either edition, with the oldest version 0.

use reference::image::Image;
use reference::layout::{Entry, ABOVE_ALL_KEYS, ALIVE, FIRST_PAGE, LEAF, MOST_PAGES};

/// What stands at and below a page up to, not including, `until`.
#[derive(Clone, Copy)]
struct Note {
    until: u32,
    /// Live entries of the page, and the first one's key.
    live: u32,
    first: u32,
    /// Every live key at and below the page is under this one.
    high: u32,
    /// Whether every page below it has its least entries.
    full: bool,
}

const NOTHING: Note = Note {
    until: ALIVE,
    live: 0,
    first: 0,
    high: 0,
    full: true,
};

/// How much work there was.
#[derive(Clone, Copy, Debug, Default, PartialEq, Eq)]
pub struct Work {
    /// Steps from change to change.
    pub steps: u64,
    /// Notes made.
    pub notes: u64,
    /// Times that the note of a page below was asked for and held.
    pub looks: u64,
}

/// What judging's pass tells: a version at which a page that came back was not
/// reached, and then no more; or whether rules 4 and 5 both hold.
#[derive(Clone, Copy, Debug, PartialEq, Eq)]
pub enum Both {
    Away(u32),
    Hold(bool),
}

struct Walk {
    image: Image,
    notes: Vec<Note>,
    work: Work,
    /// Judging's pass: it ends where rule 5 is broken too, and does not go on to name
    /// rule 4, and where a page comes back.
    judging: bool,
    /// The end of a note that had ended before its page was visited again, or 0; and
    /// whether the pass ended for it.
    away: u32,
    left: bool,
}

/// The lower of rules 4 and 5 that a store breaks, or 0, where rules 1 to 3 hold.
pub fn broken(store: &[u8]) -> (u32, Work) {
    let mut walk = Walk::new(store, false);
    let rule = walk.over_slots();
    (rule, walk.work)
}

/// Whether both hold: judging asks no more.
pub fn both_hold(store: &[u8]) -> (Both, Work) {
    let mut walk = Walk::new(store, true);
    let rule = walk.over_slots();
    let told = match walk.left {
        true => Both::Away(walk.away),
        false => Both::Hold(rule == 0),
    };
    (told, walk.work)
}

impl Walk {
    fn new(store: &[u8], judging: bool) -> Walk {
        let until = 0;
        Walk {
            image: Image::read(store),
            notes: vec![Note { until, ..NOTHING }; MOST_PAGES],
            work: Work::default(),
            judging,
            away: 0,
            left: false,
        }
    }

    fn over_slots(&mut self) -> u32 {
        let mut full = true;
        for place in 0..self.image.slots.len() {
            let own = self.image.slots[place];
            let behind = self.image.header.last() + 1;
            let next = self.image.slots.get(place + 1);
            let end = next.map_or(behind, |next| next.version);
            match self.stretch(own.root, own.version, end) {
                None => return 4,
                Some(own) => full &= own,
            }
        }
        if full {
            0
        } else {
            5
        }
    }

    /// The versions from one up to, not including, another, which have one root:
    /// whether rule 5 holds; none where rule 4 does not, and where judging leaves.
    fn stretch(&mut self, root: u32, from: u32, end: u32) -> Option<bool> {
        let level = self.image.page(root).level;
        let fewest = if level == LEAF { 0 } else { 2 };
        let mut full = true;
        let mut version = from;
        while version < end {
            self.work.steps += 1;
            let note = self.visit(root, level, version)?;
            if !low_fine(level, 0, note) || note.high > ABOVE_ALL_KEYS {
                return None;
            }
            full &= note.full && fewest <= note.live;
            if self.judging && !full {
                return None;
            }
            self.left = self.judging && self.away != 0;
            if self.left {
                return None;
            }
            version = note.until.min(end);
        }
        Some(full)
    }

    /// The note of a page, made anew; none where rule 4 is broken at or below it.
    fn visit(&mut self, number: u32, level: u32, version: u32) -> Option<Note> {
        self.work.notes += 1;
        let own = (number - FIRST_PAGE) as usize;
        let mut note = NOTHING;
        for place in 0..self.image.pages[own].entries.len() {
            let entry = self.image.pages[own].entries[place];
            note = self.next(note, level, version, entry)?;
        }
        self.notes[number as usize] = note;
        Some(note)
    }

    /// One more entry. The page under a live one is visited where its note has ended.
    fn next(&mut self, note: Note, level: u32, version: u32, entry: Entry) -> Option<Note> {
        if version < entry.span.start {
            let until = note.until.min(entry.span.start);
            return Some(Note { until, ..note });
        }
        if entry.span.end <= version {
            return Some(note);
        }
        let fewest = self.image.edition().fewest_live as u32;
        if level == LEAF {
            return joined(level, fewest, note, entry, NOTHING);
        }
        let known = self.notes[entry.value as usize];
        if version < known.until {
            self.work.looks += 1;
            return joined(level, fewest, note, entry, known);
        }
        if 0 < known.until && known.until < version {
            self.away = known.until;
        }
        let made = self.visit(entry.value, level - 1, version)?;
        joined(level, fewest, note, entry, made)
    }
}

/// One more live entry, with the note of its page.
fn joined(level: u32, fewest: u32, note: Note, entry: Entry, below: Note) -> Option<Note> {
    let leaf = level == LEAF;
    let fits = note.high <= entry.key && (leaf || low_fine(level - 1, entry.key, below));
    let filled = leaf || below.full && fewest <= below.live;
    fits.then(|| Note {
        until: note.until.min(entry.span.end).min(below.until),
        live: note.live + 1,
        first: if note.live == 0 {
            entry.key
        } else {
            note.first
        },
        high: below.high.max(entry.key + 1),
        full: note.full && filled,
    })
}

/// "The first router's low key equals its page's low key"; a leaf's keys are at
/// least that.
fn low_fine(level: u32, low: u32, note: Note) -> bool {
    match level {
        _ if note.live == 0 => true,
        LEAF => low <= note.first,
        _ => low == note.first,
    }
}

//! Lookups and ranges of 2026-04 read off word by word.
//!
//! A second reader for small walks. Like the second judge, by whose bits and
//! pages it goes, it shares no code with the package; nothing that it met once
//! is remembered.

use super::literal::{alive, directory, front, no_store, numbers, page};

struct Reader<'a> {
    bytes: &'a [u8],
    last: u64,
    low: u64,
    high: u64,
    version: u64,
    /// How many more pages it may meet.
    left: u32,
    found: Vec<u32>,
}

enum Stopped {
    Unsound,
    TooLong,
}

/// The number and what is to be written, or nothing where the walk is longer
/// than a test can wait for. A lookup is the range whose ends are its key, but
/// for the routers behind the one that it follows.
pub fn read(bytes: &[u8], keys: (u32, u32), version: u32, lookup: bool) -> Option<(u32, Vec<u32>)> {
    let number = no_store(bytes);
    if number != 0 {
        return Some((number, Vec::new()));
    }
    let front = front(bytes).filter(|(oldest, last, slots)| directory(slots, *oldest, *last));
    let Some((oldest, last, slots)) = front else {
        return Some((4, Vec::new()));
    };
    let (low, high, version) = (u64::from(keys.0), u64::from(keys.1), u64::from(version));
    if low > high || high >= 1 << 24 {
        return Some((5, Vec::new()));
    }
    if version > last || version < oldest {
        return Some((6, Vec::new()));
    }
    let root = slots.iter().rev().find(|slot| slot.0 <= version)?.1;
    let mut reader = Reader {
        bytes,
        last,
        low,
        high,
        version,
        left: 4000,
        found: Vec::new(),
    };
    match reader.walk(root, None, low, lookup) {
        Ok(()) => Some((0, reader.found)),
        Err(Stopped::Unsound) => Some((4, Vec::new())),
        Err(Stopped::TooLong) => None,
    }
}

impl Reader<'_> {
    /// Walks from a page that must have this level, if one is due, and cover
    /// this key.
    fn walk(
        &mut self,
        number: usize,
        due: Option<u64>,
        key: u64,
        lookup: bool,
    ) -> Result<(), Stopped> {
        self.left = self.left.checked_sub(1).ok_or(Stopped::TooLong)?;
        let own = numbers(self.bytes);
        let count = self.bytes.len() / own.page;
        let bytes = &self.bytes[own.page * number..][..own.page];
        let page = page(bytes, own, self.last, count).ok_or(Stopped::Unsound)?;
        if page.level == 0 || due.is_some_and(|due| page.level != due) {
            return Err(Stopped::Unsound);
        }
        let live = alive(&page, self.version);
        if page.level == 1 {
            for entry in live {
                let full = lookup && !self.found.is_empty();
                if entry.key >= self.low && entry.key <= self.high && !full {
                    self.found.extend([entry.key as u32, entry.value as u32]);
                }
            }
            return Ok(());
        }
        let below = live.iter().filter(|router| router.key <= key).count();
        if below == 0 {
            return Err(Stopped::Unsound);
        }
        let due = Some(page.level - 1);
        self.walk(live[below - 1].value as usize, due, key, lookup)?;
        for router in &live[below..] {
            if !lookup && router.key <= self.high {
                self.walk(router.value as usize, due, router.key, false)?;
            }
        }
        Ok(())
    }
}

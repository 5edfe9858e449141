//! Document 01's soundness read off word by word, over every single version,
//! with edition 2's numbers as document 02 gives them.
//!
//! A second judge for small stores. It shares no code with the package: it
//! reads bits one at a time, tests all versions rather than the turning
//! points, and finds what is reached by going through all pages level by
//! level.

type Span = (u64, u64);

#[derive(Clone)]
pub struct Entry {
    pub key: u64,
    span: Span,
    pub value: u64,
}

pub struct Page {
    pub level: u64,
    span: Span,
    entries: Vec<Entry>,
}

struct Store {
    fewest: usize,
    /// The number told by each page, and the number of its entries that have
    /// not ended.
    live: Vec<(u64, u64)>,
    oldest: u64,
    open: bool,
    last: u64,
    slots: Vec<(u64, usize)>,
    pages: Vec<Page>,
}

const ALIVE: u64 = 1_048_575;

/// The numbers in which the editions differ.
#[derive(Clone, Copy)]
pub struct Numbers {
    pub page: usize,
    entries: usize,
    count_bits: usize,
    fewest: usize,
    slots: usize,
    roots_bits: usize,
}

pub fn numbers(bytes: &[u8]) -> Numbers {
    match bytes[4] {
        2 => Numbers {
            page: 512,
            entries: 40,
            count_bits: 6,
            fewest: 8,
            slots: 512,
            roots_bits: 10,
        },
        _ => Numbers {
            page: 256,
            entries: 20,
            count_bits: 5,
            fewest: 4,
            slots: 256,
            roots_bits: 9,
        },
    }
}

fn bits(bytes: &[u8], from: usize, width: usize) -> u64 {
    let bit = |at: usize| u64::from(bytes[at / 8] >> (7 - at % 8) & 1);
    (from..from + width).fold(0, |number, at| 2 * number + bit(at))
}

fn zero(bytes: &[u8], from: usize, to: usize) -> bool {
    (from..to).all(|at| bits(bytes, at, 1) == 0)
}

fn set_bits(bytes: &mut [u8], from: usize, width: usize, number: u64) {
    for at in from..from + width {
        let bit = number >> (from + width - 1 - at) & 1;
        let place = 7 - at % 8;
        bytes[at / 8] = bytes[at / 8] & !(1 << place) | (bit as u8) << place;
    }
}

/// What a prune of a store of edition 2 leaves, where it is done: "frees every
/// page that ended at or before it and drops directory slots not needed from it
/// on", and the oldest version.
pub fn pruned(bytes: &[u8], version: u32) -> Vec<u8> {
    let mut after = bytes.to_vec();
    let version = u64::from(version);
    for page in after.chunks_mut(512).skip(5) {
        if bits(page, 0, 4) != 0 && bits(page, 30, 20) <= version {
            page.fill(0);
        }
    }
    let roots = bits(bytes, 74, 10) as usize;
    let slots: Vec<&[u8]> = bytes[512..].chunks(4).take(roots).collect();
    // A slot is needed from a version on unless the next one begins by then.
    let needed = |index: &usize| match slots.get(index + 1) {
        Some(next) => bits(next, 0, 20) > version,
        None => true,
    };
    let needed: Vec<&[u8]> = (0..roots).filter(needed).map(|i| slots[i]).collect();
    after[512..512 + 4 * roots].fill(0);
    after[512..512 + 4 * needed.len()].copy_from_slice(&needed.concat());
    set_bits(&mut after, 74, 10, needed.len() as u64);
    set_bits(&mut after, 84, 20, version);
    after
}

/// How many pages the bytes are, how many roots the header counts, and how many
/// pages from 5 on have level 0.
pub fn sizes(bytes: &[u8]) -> (u32, u32, u32) {
    let numbers = numbers(bytes);
    let pages = bytes.chunks(numbers.page);
    let free = pages.clone().skip(5).filter(|page| bits(page, 0, 4) == 0);
    let roots = bits(bytes, 74, numbers.roots_bits);
    (pages.count() as u32, roots as u32, free.count() as u32)
}

/// The number and rule that check is to give.
pub fn verdict(bytes: &[u8]) -> (u32, u32) {
    let number = no_store(bytes);
    if number != 0 {
        return (number, 0);
    }
    let Some(store) = rule_1(bytes) else {
        return (4, 1);
    };
    let rules: [fn(&Store) -> bool; 6] = [rule_2, rule_3, rule_4, rule_5, rule_6, rule_7];
    match rules.iter().position(|rule| !rule(&store)) {
        Some(index) => (4, index as u32 + 2),
        None if store.live.iter().any(|(told, live)| told != live) => (4, 8),
        None => (0, 0),
    }
}

/// 1, 2 or 3, or 0 for what may be a store.
pub fn no_store(bytes: &[u8]) -> u32 {
    if bytes.len() < 5 {
        return 1;
    }
    if bits(bytes, 0, 32) != 0x5243_5354 {
        return 2;
    }
    if bytes[4] != 1 && bytes[4] != 2 {
        return 3;
    }
    let page = numbers(bytes).page;
    let whole = bytes.len().is_multiple_of(page);
    if whole && bytes.len() >= 6 * page && bytes.len() <= 4096 * page {
        0
    } else {
        1
    }
}

/// The store, if rule 1 holds.
fn rule_1(bytes: &[u8]) -> Option<Store> {
    let (oldest, last, slots) = front(bytes)?;
    let own = numbers(bytes);
    let count = bytes.len() / own.page;
    let page = |number: usize| page(&bytes[own.page * number..][..own.page], own, last, count);
    // Pages 0 to 4 stand in as free ones, so that numbers are indices.
    let empty = (0..5).map(|_| Some(free()));
    let pages: Option<Vec<Page>> = empty.chain((5..count).map(page)).collect();
    // In edition 2 six bits behind the page's end, from bit 50 on.
    let told = |number: usize| bits(&bytes[own.page * number..], 50, 6);
    let live = |page: &Page| page.entries.iter().filter(|e| e.span.1 == ALIVE).count();
    let counted = |(number, page): (usize, &Page)| (told(number), live(page) as u64);
    let counts = |pages: &[Page]| match own.page {
        512 => pages.iter().enumerate().skip(5).map(counted).collect(),
        _ => Vec::new(),
    };
    pages.map(|pages| Store {
        live: counts(&pages),
        oldest,
        open: bits(bytes, 73, 1) == 1,
        fewest: own.fewest,
        last,
        slots,
        pages,
    })
}

/// The oldest version and the last, and the slots, if rule 1 holds of the header
/// and of them.
pub fn front(bytes: &[u8]) -> Option<(u64, u64, Vec<(u64, usize)>)> {
    let own = numbers(bytes);
    let count = bytes.len() / own.page;
    let (current, open) = (bits(bytes, 53, 20), bits(bytes, 73, 1));
    let roots = bits(bytes, 74, own.roots_bits);
    let last = current + open;
    let header = bits(bytes, 40, 13) == count as u64 && last < ALIVE && roots <= own.slots as u64;
    // In edition 2 the oldest version stands in bits 84 to 103.
    let (oldest, end) = match own.page {
        512 => (bits(bytes, 84, 20), 104),
        _ => (0, 83),
    };
    if !header || oldest > current || !zero(bytes, end, 8 * own.page) {
        return None;
    }
    let slot = |index: usize| &bytes[own.page + 4 * index..][..4];
    let mut slots = Vec::new();
    for index in 0..own.slots {
        let (version, root) = (bits(slot(index), 0, 20), bits(slot(index), 20, 12) as usize);
        if index as u64 >= roots {
            if !zero(slot(index), 0, 32) {
                return None;
            }
        } else if (5..count).contains(&root) {
            slots.push((version, root));
        } else {
            return None;
        }
    }
    Some((oldest, last, slots))
}

fn free() -> Page {
    Page {
        level: 0,
        span: (0, 0),
        entries: Vec::new(),
    }
}

fn span_fits(span: Span, last: u64) -> bool {
    span.0 <= last && (span.1 <= last || span.1 == ALIVE) && span.0 < span.1
}

pub fn page(bytes: &[u8], own: Numbers, last: u64, count: usize) -> Option<Page> {
    let level = bits(bytes, 0, 4);
    if level == 0 {
        return zero(bytes, 0, 8 * own.page).then(free);
    }
    let entry_count = bits(bytes, 4, own.count_bits) as usize;
    let start_at = 4 + own.count_bits;
    let span = (bits(bytes, start_at, 20), bits(bytes, start_at + 20, 20));
    let behind = 16 + 12 * own.entries;
    let head = start_at + 40 + if own.page == 512 { 6 } else { 0 };
    let spare = zero(bytes, head, 128) && zero(bytes, 8 * behind, 8 * own.page);
    if level > 7 || entry_count > own.entries || !span_fits(span, last) || !spare {
        return None;
    }
    let mut entries: Vec<Entry> = Vec::new();
    for index in 0..own.entries {
        let place = &bytes[16 + 12 * index..28 + 12 * index];
        if index < entry_count {
            let entry = entry(place, &entries)?;
            let own = if level == 1 {
                entry.span.0 >= 1
            } else {
                entry.value >= 5 && entry.value < count as u64
            };
            if !own || !span_fits(entry.span, last) {
                return None;
            }
            entries.push(entry);
        } else if !zero(place, 0, 96) {
            return None;
        }
    }
    Some(Page {
        level,
        span,
        entries,
    })
}

/// The entry, if it stands behind all those before it.
fn entry(bytes: &[u8], before: &[Entry]) -> Option<Entry> {
    let entry = Entry {
        key: bits(bytes, 0, 24),
        span: (bits(bytes, 24, 20), bits(bytes, 44, 20)),
        value: bits(bytes, 64, 32),
    };
    let ordered = before
        .iter()
        .all(|other| (other.key, other.span.0) < (entry.key, entry.span.0));
    ordered.then_some(entry)
}

fn rule_2(store: &Store) -> bool {
    directory(&store.slots, store.oldest, store.last)
}

pub fn directory(slots: &[(u64, usize)], oldest: u64, last: u64) -> bool {
    let mut expected_above = None;
    for (index, (version, _)) in slots.iter().enumerate() {
        if (index == 0) != (*version <= oldest) || *version > last {
            return false;
        }
        if expected_above.is_some_and(|before| *version <= before) {
            return false;
        }
        expected_above = Some(*version);
    }
    !slots.is_empty()
}

fn within(inner: Span, outer: Span) -> bool {
    outer.0 <= inner.0 && inner.1 <= outer.1
}

fn rule_3(store: &Store) -> bool {
    for page in &store.pages {
        for entry in &page.entries {
            if page.level > 1 && entry.span.1 <= store.oldest {
                continue;
            }
            if !within(entry.span, page.span) {
                return false;
            }
            if page.level > 1 {
                let child = &store.pages[entry.value as usize];
                if child.level != page.level - 1 || !within(entry.span, child.span) {
                    return false;
                }
            }
        }
    }
    store.slots.iter().all(|slot| store.pages[slot.1].level > 0)
}

fn root(store: &Store, version: u64) -> usize {
    let mut upto = store.slots.iter().filter(|slot| slot.0 <= version);
    upto.next_back().unwrap().1
}

pub fn alive(page: &Page, version: u64) -> Vec<&Entry> {
    let entries = page.entries.iter();
    entries
        .filter(|entry| entry.span.0 <= version && version < entry.span.1)
        .collect()
}

fn rule_4(store: &Store) -> bool {
    (store.oldest..=store.last).all(|version| {
        let mut waiting = vec![(root(store, version), 0, 1 << 24)];
        while let Some((number, low, above)) = waiting.pop() {
            let page = &store.pages[number];
            let live = alive(page, version);
            let mut keys: Vec<u64> = live.iter().map(|entry| entry.key).collect();
            let outside = keys.iter().any(|key| *key < low || *key >= above);
            let first_wrong = page.level > 1 && keys.first().is_some_and(|key| *key != low);
            keys.dedup();
            if outside || first_wrong || keys.len() != live.len() {
                return false;
            }
            if page.level > 1 {
                keys.push(above);
                for (index, router) in live.iter().enumerate() {
                    waiting.push((router.value as usize, router.key, keys[index + 1]));
                }
            }
        }
        true
    })
}

/// The pages reached at a version, found level by level.
fn reached(store: &Store, version: u64) -> Vec<bool> {
    let mut reached = vec![false; store.pages.len()];
    reached[root(store, version)] = true;
    for level in (2..8).rev() {
        for number in 5..store.pages.len() {
            let page = &store.pages[number];
            if reached[number] && page.level == level {
                for router in alive(page, version) {
                    reached[router.value as usize] = true;
                }
            }
        }
    }
    reached
}

fn rule_5(store: &Store) -> bool {
    (store.oldest..=store.last).all(|version| {
        let reached = reached(store, version);
        let root = root(store, version);
        (5..store.pages.len()).all(|number| {
            let page = &store.pages[number];
            let fewest = match (number == root, page.level) {
                (true, 1) => 0,
                (true, _) => 2,
                (false, _) => store.fewest,
            };
            !reached[number] || alive(page, version).len() >= fewest
        })
    })
}

fn rule_6(store: &Store) -> bool {
    (store.oldest..=store.last).all(|version| {
        let reached = reached(store, version);
        (5..store.pages.len()).all(|number| {
            let page = &store.pages[number];
            let in_span = page.span.0 <= version && version < page.span.1;
            reached[number] == (page.level > 0 && in_span)
        })
    })
}

fn rule_7(store: &Store) -> bool {
    let pages = store.pages.iter();
    let mut active = pages.filter(|page| store.open && page.level > 0 && page.span.0 == store.last);
    active.all(|page| {
        let mut entries = page.entries.iter();
        entries.all(|entry| entry.span == (store.last, ALIVE))
    })
}

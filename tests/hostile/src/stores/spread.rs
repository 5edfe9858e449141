//! Few pages a level, and each of their routers to some page of the next: the ways
//! down multiply, and a range has to answer as if it had gone each of them.

use reference::edition::{Edition, FIRST, SECOND};
use reference::layout::{Entry, Page, Slot, Span, FIRST_PAGE, LEAF, MOST_PAGES};
use reference::rng::Rng;

use super::{empty_root, entry, written};

/// A range from 0 to this key follows every router and finds every setting.
pub const HIGH: u32 = 8_000_000;
const SETTINGS: u32 = 7_000_000;

#[derive(Clone, Copy)]
pub struct Spread {
    pub edition: &'static Edition,
    pub seed: u32,
    /// The root's level, and the pages of each level below it.
    pub depth: u32,
    pub wide: u32,
    /// Routers of a page, and settings of a leaf.
    pub fan: u32,
    pub settings: u32,
    /// Of so many leaves more than one, one has settings.
    pub bare: u32,
    pub keys: Keys,
    /// More pages of the root's level, to which nothing leads.
    pub crowd: u32,
}

/// One page a level, twenty routers each to the next.
pub const PLAIN: Spread = Spread {
    edition: &FIRST,
    seed: 1,
    depth: 7,
    wide: 1,
    fan: 20,
    settings: 20,
    bare: 0,
    keys: Keys::Behind,
    crowd: 0,
};

/// The same of edition 2, forty routers each.
pub const WIDER: Spread = Spread {
    edition: &SECOND,
    fan: 40,
    settings: 40,
    ..PLAIN
};

/// A store of the table: what it is, and its numbers.
pub type Row = (&'static str, Spread);

/// The stores of the table.
pub fn rows() -> Vec<Row> {
    [first_rows(), second_rows()].concat()
}

/// Those of edition 1.
fn first_rows() -> Vec<Row> {
    let same = Spread {
        keys: Keys::Same,
        ..PLAIN
    };
    let wide = Spread { wide: 681, ..PLAIN };
    let any = Spread {
        keys: Keys::Any,
        ..wide
    };
    let crowd = 4_083;
    vec![
        ("one page a level, root at 3", Spread { depth: 3, ..PLAIN }),
        ("one page a level, root at 5", Spread { depth: 5, ..PLAIN }),
        ("one page a level, root at 7", PLAIN),
        ("the same keys on each level", same),
        ("681 pages a level", wide),
        ("681 pages a level, any keys", any),
        ("4,083 more of level 7", Spread { crowd, ..PLAIN }),
        (
            "4,083 more of level 7, the same keys",
            Spread { crowd, ..same },
        ),
    ]
}

/// Those of edition 2.
fn second_rows() -> Vec<Row> {
    let any = Spread {
        wide: 681,
        keys: Keys::Any,
        ..WIDER
    };
    let same = Spread {
        crowd: 4_083,
        keys: Keys::Same,
        ..WIDER
    };
    vec![
        ("edition 2, one page a level", WIDER),
        ("edition 2, 681 pages a level, any keys", any),
        ("edition 2, 4,083 more of level 7, the same keys", same),
    ]
}

/// How the keys of routers lie.
#[derive(Clone, Copy, PartialEq, Eq)]
pub enum Keys {
    /// Those of each level behind those of the level above: under any router the
    /// first one of the child is the last at or below the key, and all others are
    /// later ones.
    Behind,
    /// The same on each level: half of the routers are later ones.
    Same,
    /// Anywhere.
    Any,
}

/// None if it does not fit.
pub fn spread(numbers: Spread) -> Option<Vec<u8>> {
    let below = numbers.wide * (numbers.depth - 1);
    if 2 + below + numbers.crowd + FIRST_PAGE > MOST_PAGES as u32 {
        return None;
    }
    let mut rng = Rng::new(numbers.seed.into());
    let mut pages = vec![empty_root()];
    for level in LEAF..numbers.depth {
        for place in 0..numbers.wide {
            pages.push(page(numbers, &mut rng, level, place));
        }
    }
    let root = FIRST_PAGE + pages.len() as u32;
    for place in 0..=numbers.crowd {
        pages.push(page(numbers, &mut rng, numbers.depth, place));
    }
    let slot = |version, root| Slot { version, root };
    let slots = vec![slot(0, FIRST_PAGE), slot(1, root)];
    Some(written(numbers.edition, pages, 1, slots))
}

fn page(numbers: Spread, rng: &mut Rng, level: u32, place: u32) -> Page {
    let span = Span::alive_from(1);
    let entries: Vec<Entry> = match level {
        LEAF if place % (numbers.bare + 1) != 0 => Vec::new(),
        LEAF => (0..numbers.settings)
            .map(|own| entry(SETTINGS + own, span, 7))
            .collect(),
        _ => {
            let first = FIRST_PAGE + 1 + numbers.wide * (level - LEAF - 1);
            let led = |rng: &mut Rng| first + rng.below(numbers.wide);
            let keys = keys(numbers, rng, level);
            keys.iter().map(|key| entry(*key, span, led(rng))).collect()
        }
    };
    Page::new(level, span, entries)
}

/// Rising, the first of them 0.
fn keys(numbers: Spread, rng: &mut Rng, level: u32) -> Vec<u32> {
    let above = match numbers.keys {
        Keys::Behind => numbers.fan * (numbers.depth - level),
        _ => 0,
    };
    let mut keys: Vec<u32> = (1..numbers.fan)
        .map(|place| match numbers.keys {
            Keys::Any => 1 + rng.below(SETTINGS - 1),
            _ => above + place,
        })
        .collect();
    keys.push(0);
    keys.sort_unstable();
    keys.dedup();
    keys
}

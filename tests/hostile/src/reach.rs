//! Rule 6 at one version: a walk from the root that marks what it reaches. Asked where
//! rules 4 and 5 hold, so that no page is met twice.

use reference::layout::{FREE, LEAF, MOST_PAGES};

use crate::quick::read::{header, slot, Loads, Reading};
use crate::quick::{numbers, part};

/// Whether the marks are those of the pages alive, and how many there are.
pub fn at(store: &[u8], version: u32) -> (bool, u64) {
    let mut marks = [false; MOST_PAGES];
    let slots = (0..header(store).roots).map(|place| slot(store, place));
    let begun = slots.take_while(|slot| slot.version <= version);
    let root = begun.last().expect("a slot of version 0").root;
    let count = mark(store, root, version, &mut marks);
    let well = numbers(store).all(|number| {
        let head = Loads::head(part(store, number));
        let alive = head.level != FREE && head.start <= version && version < head.end;
        marks[number] == alive
    });
    (well, count)
}

fn mark(store: &[u8], number: usize, version: u32, marks: &mut [bool; MOST_PAGES]) -> u64 {
    marks[number] = true;
    let page = part(store, number);
    let head = Loads::head(page);
    if head.level == LEAF {
        return 1;
    }
    let live = (0..head.count)
        .map(|place| Loads::entry(page, place))
        .filter(|router| router.start <= version && version < router.end);
    1 + live
        .map(|router| mark(store, router.value as usize, version, marks))
        .sum::<u64>()
}

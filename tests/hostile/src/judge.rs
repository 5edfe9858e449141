//! The number and the rule of check, and what finding them took.

use reference::check::named_edition;
use reference::edition::FIRST;
use reference::layout::PAGE_BYTES;
use reference::number;

use crate::notes::{self, Both, Work};
use crate::quick::read::{header, Loads, Reading};
use crate::quick::{budget, led, quick, rules, surely};
use crate::reach;

/// What a call took: pages that `under` read; the notes where these were too many, in
/// judging; the notes that name a rule, in check; the reach walk at one version.
#[derive(Clone, Copy, Debug, Default, PartialEq, Eq)]
pub struct Taken {
    pub under: u32,
    pub judging: Work,
    pub naming: Work,
    pub reached: u64,
}

impl Taken {
    /// Pages read, but for the passes that read each page once.
    pub fn visits(self) -> u64 {
        u64::from(self.under) + self.judging.notes + self.naming.notes + self.reached
    }
}

/// Numbers 1 to 3, if it is one of them. Stores of edition 1 alone are judged
/// here.
fn refused(store: &[u8]) -> Option<u32> {
    match named_edition(store) {
        Err(refusal) => Some(refusal),
        Ok(edition) if *edition != FIRST => Some(number::EDITION),
        Ok(edition) => (!edition.length_fits(store.len())).then_some(number::LENGTH),
    }
}

/// The number of check, without the rule that 4 comes with.
#[inline(never)]
pub fn number<R: Reading>(store: &[u8]) -> u32 {
    judged::<R>(store, budget(store.len() / PAGE_BYTES)).0
}

/// The same with a budget, and what it took.
pub fn judged<R: Reading>(store: &[u8], budget: u32) -> (u32, Taken) {
    let mut taken = Taken::default();
    if let Some(number) = refused(store) {
        return (number, taken);
    }
    if rules::broken::<R>(store) != 0 {
        return (number::UNSOUND, taken);
    }
    let mut left = budget;
    let quick = quick::<R>(store, &mut left);
    taken.under = budget - left;
    let sound = quick.unwrap_or_else(|| by_notes(store, &mut taken));
    let number = if sound { number::DONE } else { number::UNSOUND };
    (number, taken)
}

/// Rules 4 to 6, where rules 1 to 3 hold, the sums and the slots are right and nothing
/// of the budget is left.
fn by_notes(store: &[u8], taken: &mut Taken) -> bool {
    let (told, work) = notes::both_hold(store);
    taken.judging = work;
    match told {
        Both::Hold(hold) => hold,
        Both::Away(version) => {
            let (reached, pages) = reach::at(store, version);
            taken.reached = pages;
            // the proved code would ask check's notes here: it never comes to that
            assert!(!reached, "a page that came back was not reached");
            false
        }
    }
}

/// Check: the number and, with 4, the lowest rule that is broken. Where the pages do
/// not tell that the store is sound the notes are asked, once.
pub fn check(store: &[u8], budget: u32) -> (u32, u32, Taken) {
    let mut taken = Taken::default();
    if let Some(number) = refused(store) {
        return (number, 0, taken);
    }
    let local = rules::broken::<Loads>(store);
    if local != 0 {
        return (number::UNSOUND, local, taken);
    }
    let fit = led::<Loads>(store);
    let mut left = budget;
    let sure = surely::<Loads>(store, fit, &mut left);
    taken.under = budget - left;
    if sure {
        return (number::DONE, 0, taken);
    }
    let (rule, work) = notes::broken(store);
    taken.naming = work;
    if rule != 0 {
        return (number::UNSOUND, rule, taken);
    }
    let (reached, pages) = reach::at(store, header(store).last);
    taken.reached = pages;
    // what the walk finds the sums and the slots find too
    assert!(reached || !fit);
    match fit {
        true => (number::DONE, 0, taken),
        false => (number::UNSOUND, 6, taken),
    }
}

//! Hill climbing over a family's numbers: a step is kept if it does not make the
//! count of visits smaller.

use reference::layout::PAGE_BYTES;
use reference::rng::Rng;

use crate::judge::{check, judged, Taken};
use crate::quick::budget;
use crate::quick::read::Loads;
use crate::recipe::{Family, Number};

/// A store that was tried, and what judging and check took.
pub struct Tried {
    pub numbers: Vec<u32>,
    pub store: Vec<u8>,
    pub number: u32,
    pub rule: u32,
    pub judging: Taken,
    pub check: Taken,
}

impl Tried {
    /// Pages read by both.
    pub fn visits(&self) -> u64 {
        self.judging.visits() + self.check.visits()
    }
}

/// The store of these numbers, checked, if it has at most so many pages.
pub fn tried(family: &Family, numbers: &[u32], most: usize) -> Option<Tried> {
    let store = family.store(numbers)?;
    let pages = store.len() / PAGE_BYTES;
    if pages > most {
        return None;
    }
    let (number, rule, taken) = check(&store, budget(pages));
    let (judged, judging) = judged::<Loads>(&store, budget(pages));
    assert_eq!(judged, number, "judging and check");
    let numbers = numbers.to_vec();
    Some(Tried {
        numbers,
        store,
        number,
        rule,
        judging,
        check: taken,
    })
}

/// Tries so many stores of at most so many pages, each handed to `seen`; the one
/// with the most visits.
pub fn climb(
    family: &Family,
    seed: u64,
    times: u32,
    most: usize,
    seen: &mut dyn FnMut(&Tried),
) -> Option<Tried> {
    let mut rng = Rng::new(seed);
    let mut best: Option<Tried> = None;
    for _ in 0..times {
        let numbers = match &best {
            None => family
                .numbers
                .iter()
                .map(|number| anywhere(&mut rng, *number))
                .collect(),
            Some(best) => near(&mut rng, family.numbers, &best.numbers),
        };
        let Some(tried) = tried(family, &numbers, most) else {
            continue;
        };
        seen(&tried);
        if best
            .as_ref()
            .is_none_or(|best| best.visits() <= tried.visits())
        {
            best = Some(tried);
        }
    }
    best
}

/// Mostly small ones, since large ones together find no room.
fn anywhere(rng: &mut Rng, (_, low, high): Number) -> u32 {
    let upto = low + (high - low) / (1 << rng.below(6));
    rng.between(low, upto)
}

/// One or two numbers changed, by a little or to anything.
fn near(rng: &mut Rng, ranges: &[Number], numbers: &[u32]) -> Vec<u32> {
    let mut next = numbers.to_vec();
    for _ in 0..rng.between(1, 2) {
        let place = rng.below(ranges.len() as u32) as usize;
        let (_, low, high) = ranges[place];
        let own = next[place];
        let step = 1 + own / 8;
        next[place] = match rng.below(5) {
            0 => anywhere(rng, ranges[place]),
            1 => own.saturating_sub(1),
            2 => own + 1,
            3 => own.saturating_sub(rng.between(1, step)),
            _ => own + rng.between(1, step),
        }
        .clamp(low, high);
    }
    next
}

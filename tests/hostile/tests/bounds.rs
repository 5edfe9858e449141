//! Whatever store is tried, judging and check read no more pages than is said.

use hostile::bound::{most, Bound};
use hostile::judge::judged;
use hostile::notes;
use hostile::quick::{budget, read::Loads};
use hostile::recipe::{family, second, FAMILIES, ROWS};
use hostile::search::{climb, tried, Tried};
use reference::calls;
use reference::edition::{Edition, FIRST, SECOND};
use reference::layout::PAGE_BYTES;

/// The most notes for a page of the store that any store was found to take.
const NOTES_A_PAGE: u64 = 1300;

fn bounded(tried: &Tried, name: &str) {
    let numbers = &tried.numbers;
    let pages = tried.store.len() / PAGE_BYTES;
    let bound = Bound::of(&tried.store);
    for taken in [tried.judging, tried.check] {
        assert!(taken.under <= budget(pages), "{name} {numbers:?}");
        assert!(taken.reached <= bound.pages, "{name} {numbers:?}");
    }
    let (judging, check) = (tried.judging.judging, tried.check.naming);
    assert!(
        bound.holds_judging(judging),
        "{name} {numbers:?}: {judging:?}"
    );
    assert!(bound.holds_check(check), "{name} {numbers:?}: {check:?}");
    within_the_most(&tried.store, bound);
    for work in [judging, check] {
        assert!(
            work.notes <= NOTES_A_PAGE * pages as u64,
            "{name} {numbers:?}"
        );
    }
}

/// What bounds a store is no more than what bounds all stores of so many pages.
fn within_the_most(store: &[u8], bound: Bound) {
    let (judging, check) = most(Edition::of(store), bound.pages);
    assert!(bound.judging <= judging && bound.check <= check);
}

/// The millions that docs/CHECK-COST.md says.
#[test]
fn the_most_of_any_bytes() {
    assert_eq!(most(&FIRST, 4091), (1_153_918, 29_146_802));
    assert_eq!(most(&SECOND, 4091), (2_299_654, 83_702_263));
}

#[test]
fn the_rows_of_the_table() {
    for row in &ROWS {
        let tried = tried(family(row.family), row.small, 256).expect(row.name);
        assert_eq!(tried.number == 4, tried.rule >= 4, "{}", row.name);
        bounded(&tried, row.family);
        let verdict = (tried.number, tried.rule);
        assert_eq!(host::check(&tried.store), verdict, "{}", row.name);
    }
}

/// Trees that take turns break rule 5, and none but 5.
#[test]
fn turning_trees_break_rule_5() {
    for name in ["turns", "pool"] {
        climb(family(name), 3, 60, 200, &mut |tried| {
            let storm = name == "turns" && tried.numbers[6] == 1;
            let rule = if storm { 4 } else { 5 };
            assert_eq!((tried.number, tried.rule), (4, rule), "{:?}", tried.numbers);
        });
    }
}

fn large(name: &str) -> Vec<u8> {
    let row = ROWS.iter().find(|row| row.name == name).expect(name);
    family(row.family).store(row.large).expect(name)
}

/// These tests can fail: judging's bound is too little for check where trees take turns.
#[test]
fn a_bound_that_is_too_small() {
    for name in ["turns", "pool, shared up to level 3"] {
        let store = large(name);
        let bound = Bound::of(&store);
        let (_, work) = notes::broken(&store);
        assert!(bound.holds_check(work), "{name}: {work:?}");
        assert!(!bound.holds_judging(work), "{name}: {work:?}");
    }
}

/// Judging leaves a relay when its first tree comes back; check goes through all turns.
#[test]
fn a_page_that_comes_back() {
    let store = large("relay, a storm behind it");
    let pages = (store.len() / PAGE_BYTES) as u64;
    let (number, judging) = judged::<Loads>(&store, budget(store.len() / PAGE_BYTES));
    let (rule, check) = notes::broken(&store);
    assert_eq!((number, rule), (4, 4));
    assert!(judging.judging.notes < pages, "{judging:?}");
    assert!(
        judging.reached > 0 && judging.reached < pages,
        "{judging:?}"
    );
    assert!(check.notes > 100 * pages, "{check:?}");
}

#[test]
fn edition_2() {
    for (name, store) in second() {
        let bound = Bound::of(&store);
        let (rule, work) = notes::broken(&store);
        let (_, judging) = notes::both_hold(&store);
        assert!(bound.holds_check(work), "{name}: {work:?}");
        assert!(bound.holds_judging(judging), "{name}: {judging:?}");
        within_the_most(&store, bound);
        assert_eq!(host::check(&store), (4, rule), "{name}");
        if store.len() < 1 << 18 {
            assert_eq!(calls::check(&store), (4, rule), "{name}");
        }
    }
}

#[test]
fn hill_climbing() {
    let times = match std::env::var("RCST_LONG") {
        Ok(_) => 2000,
        Err(_) => 60,
    };
    for family in &FAMILIES {
        for (seed, most) in [(1, 40), (2, 300)] {
            let best = climb(family, seed, times, most, &mut |tried| {
                bounded(tried, family.name);
                let verdict = (tried.number, tried.rule);
                assert_eq!(host::check(&tried.store), verdict, "{:?}", tried.numbers);
            });
            if let Some(best) = best {
                let visits = best.visits();
                println!("{} {:?}: {visits} visits", family.name, best.numbers);
            }
        }
    }
}

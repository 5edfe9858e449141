//! One insert or delete, judging left out, beside one sorted list for each
//! version.
//!
//! The calls judge at every update. So a round times some updates, and right
//! after them as many calls of open that judge and are refused by number 8.

use std::hint::black_box;

use hostile::stores;
use reference::layout::{HIGHEST_KEY, PAGE_BYTES};
use reference::model::Model;
use reference::{number, store, unjudged, walk};

use crate::proved;
use hostile::measure::{in_turn, times, told, Times};

/// So many keys, evenly over all keys, are inserted and then deleted again:
/// few in a round, so that what they take and judging stand close together.
const KEYS: u32 = 4;
const UPDATES: f64 = 2.0 * KEYS as f64;
/// And where pages are counted.
const COUNTED: u32 = 16;

/// A store with an update open and with pages left: it has had four updates a
/// page.
pub fn opened(pages: usize, versions: usize) -> Vec<u8> {
    let mut store = stores::grown_by(pages, versions, 4 * pages);
    assert_eq!(unjudged::open(&mut store), number::DONE);
    store
}

/// Keys that are not alive.
fn absent_keys(store: &[u8], count: u32) -> Vec<u32> {
    let open = store::header(store).last();
    let apart = HIGHEST_KEY / count;
    let places = (0..count).map(|place| apart * place + apart / 2);
    places
        .map(|place| {
            let mut keys = place..;
            keys.find(|key| walk::lookup(store, *key, open).is_none())
                .expect("most keys are absent")
        })
        .collect()
}

/// The inserts and the deletes; all of them are done.
fn update(store: &mut [u8], keys: &[u32]) {
    for key in keys {
        assert_eq!(proved::insert(store, *key, 7), number::DONE);
    }
    for key in keys {
        assert_eq!(proved::delete(store, *key), number::DONE);
    }
}

fn update_list(list: &mut Vec<(u32, u32)>, keys: &[u32]) {
    let find = |list: &[(u32, u32)], key| list.binary_search_by_key(&key, |setting| setting.0);
    for key in keys {
        let place = find(list, *key).expect_err("absent");
        list.insert(place, (*key, 7));
    }
    for key in keys {
        let place = find(list, *key).expect("alive");
        list.remove(place);
    }
}

/// Ways 0 and 1: the updates, and the judging that goes with them; each on a
/// copy of the store. Ways 2 and 3: the updates of the list, and its copy alone.
fn timed(store: &[u8]) -> Times {
    let keys = absent_keys(store, KEYS);
    let model = Model::of_store(store);
    let list: Vec<(u32, u32)> = model
        .at(model.last())
        .iter()
        .map(|(k, v)| (*k, *v))
        .collect();
    let (mut updated, mut judged) = (store.to_vec(), store.to_vec());
    in_turn(&mut [
        &mut || {
            updated.copy_from_slice(black_box(store));
            update(&mut updated, &keys);
            updated[0].into()
        },
        &mut || {
            judged.copy_from_slice(black_box(store));
            let numbers = (0..2 * KEYS).map(|_| u64::from(proved::open(black_box(&mut judged))));
            numbers.sum()
        },
        &mut || {
            let mut list = black_box(&list).clone();
            update_list(&mut list, &keys);
            list.len() as u64
        },
        &mut || black_box(black_box(&list).clone()).len() as u64,
    ])
}

/// Seconds that one update takes without judging: the quartiles.
pub fn one_update(store: &[u8]) -> [f64; 3] {
    timed(store).more(0, 1).map(|all| all / UPDATES)
}

/// How many pages the updates change: on average, and the most.
fn pages_changed(store: &[u8]) -> (f64, usize) {
    let mut store = store.to_vec();
    let (mut all, mut most) = (0, 0);
    let keys = absent_keys(&store, COUNTED);
    let steps = 2 * keys.len();
    for step in 0..steps {
        let before = store.clone();
        match keys.get(step) {
            Some(key) => assert_eq!(proved::insert(&mut store, *key, 7), number::DONE),
            None => assert_eq!(
                proved::delete(&mut store, keys[step - keys.len()]),
                number::DONE
            ),
        }
        let pages = before.chunks(PAGE_BYTES).zip(store.chunks(PAGE_BYTES));
        let changed = pages.filter(|(one, other)| one != other).count();
        all += changed;
        most = most.max(changed);
    }
    (all as f64 / steps as f64, most)
}

pub fn updates() {
    println!("## Updates on a judged store\n");
    println!("Times as long as on one sorted list for each version; the list is copied at open.\n");
    println!("| pages | versions | settings | levels | pages changed, mean and most | ratio | proved, one update | quartiles | sorted list | copy of the list | judging |");
    println!("|---|---|---|---|---|---|---|---|---|---|---|");
    for (pages, versions) in [(16, 8), (256, 32), (4096, 32)] {
        row(pages, versions);
    }
    println!();
}

fn row(pages: usize, versions: usize) {
    let store = opened(pages, versions);
    let open = store::header(&store).last();
    let root = store::page(&store, walk::root(&store, open));
    let (mean, most) = pages_changed(&store);
    let taken = timed(&store);
    let quartiles = taken.more(0, 1).map(|all| all / UPDATES);
    let listed = taken.more(2, 3)[1] / UPDATES;
    println!(
        "| {pages} | {versions} | {} | {} | {mean:.1}, {most} | {} | {} | {} | {} |",
        walk::range(&store, 0, HIGHEST_KEY, open).len(),
        root.level,
        told_apart(quartiles, listed),
        told(listed),
        told(taken.of(3)),
        told(taken.of(1) / UPDATES)
    );
}

/// Three fields of the table. Where judging varies by more than an update
/// takes, all that can be said is how long it takes at most.
fn told_apart([low, middle, high]: [f64; 3], listed: f64) -> String {
    if low > 0.0 {
        format!(
            "{} | {} | {} to {}",
            times(middle / listed),
            told(middle),
            told(low),
            told(high)
        )
    } else {
        format!(
            "| not to be told from judging | up to {}",
            told(high.max(0.0))
        )
    }
}

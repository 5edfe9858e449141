//! The life of a key beside the same question to one sorted list for each
//! version.
//!
//! The call judges the store first, which a commit that is refused by number 7
//! does too: what is left is the walk from change to change, twice.

use std::hint::black_box;

use hostile::measure::{in_turn, times, told};
use hostile::stores;
use reference::foreign::raise_current;
use reference::layout::{HIGHEST_VERSION, PAGE_BYTES};
use reference::model::Model;
use reference::{calls, number, store, unjudged};

use crate::proved;

/// The end of a stretch that is still alive.
const ALIVE: u32 = HIGHEST_VERSION + 1;

/// A store of 256 pages in which one key gets another value in each of
/// `versions` versions; forty others stay.
fn changed(key: u32, versions: u32) -> Vec<u8> {
    let mut bytes = vec![0; 256 * PAGE_BYTES];
    assert_eq!(calls::fresh(&mut bytes), number::DONE);
    for version in 1..=versions {
        assert_eq!(unjudged::open(&mut bytes), number::DONE);
        if version == 1 {
            for other in 0..40 {
                assert_eq!(
                    unjudged::insert(&mut bytes, 10 * other, other),
                    number::DONE
                );
            }
        } else {
            assert_eq!(unjudged::delete(&mut bytes, key), number::DONE);
        }
        assert_eq!(unjudged::insert(&mut bytes, key, version), number::DONE);
        assert_eq!(unjudged::commit(&mut bytes), number::DONE);
    }
    bytes
}

/// A version's settings in key order.
type List = Vec<(u32, u32)>;

/// One sorted list for each version; versions behind `last`, in which nothing
/// changes, have that of `last`.
fn lists(bytes: &[u8], last: u32) -> Vec<List> {
    let model = Model::of_store(bytes);
    let list = |version| model.at(version).iter().map(|(k, v)| (*k, *v)).collect();
    (0..=last).map(list).collect()
}

/// The stretches of a key, by a search in the list of each version up to
/// `current`: start, end and value each.
fn in_lists(lists: &[List], current: u32, key: u32) -> Vec<u32> {
    let mut told: Vec<u32> = Vec::new();
    for version in 0..=current {
        let list = &lists[(version as usize).min(lists.len() - 1)];
        let Ok(place) = list.binary_search_by_key(&key, |setting| setting.0) else {
            continue;
        };
        match told[..] {
            [.., _, ref mut end, value] if *end == version && value == list[place].1 => *end += 1,
            _ => told.extend([version, version + 1, list[place].1]),
        }
    }
    if let [.., _, end, _] = &mut told[..] {
        if *end == current + 1 {
            *end = ALIVE;
        }
    }
    told
}

/// A line of the table: a key's life in a store whose versions behind `last` change
/// nothing.
fn row(name: &str, bytes: &[u8], last: u32, key: u32) {
    let lists = lists(bytes, last);
    let current = store::header(bytes).current;
    let stretches = in_lists(&lists, current, key);
    let mut list = vec![0; stretches.len()];
    assert_eq!(
        proved::life(bytes, key, &mut list),
        (0, stretches.len() / 3)
    );
    assert_eq!(list, stretches);
    let mut judged = bytes.to_vec();
    let taken = in_turn(&mut [
        &mut || proved::life(black_box(bytes), key, &mut list).1 as u64,
        &mut || in_lists(black_box(&lists), current, key).len() as u64,
        &mut || proved::commit(black_box(&mut judged)).into(),
    ]);
    let one = taken.of(0) - taken.of(2);
    println!(
        "| {name} | {} | {} | {} | {} | {} |",
        stretches.len() / 3,
        times(one / taken.of(1)),
        told(one),
        told(taken.of(1)),
        told(taken.of(2))
    );
}

pub fn lives() {
    println!("## The life of a key\n");
    println!("Times as long as a search in one sorted list for each version, judging left out.\n");
    println!("| | stretches | ratio | proved | sorted lists | judging |");
    println!("|---|---|---|---|---|---|");
    let often = changed(105, 1000);
    row("a key changed in each of 1,000 versions", &often, 1000, 105);
    row("its neighbour, which stays", &often, 1000, 100);
    let mut later = often;
    raise_current(&mut later, HIGHEST_VERSION);
    let name = "the same two with a million empty versions behind";
    row(name, &later, 1000, 105);
    row("", &later, 1000, 100);
    let grown = stores::grown(256, 1024);
    let some = Model::of_store(&grown);
    let some = *some.at(512).keys().next().expect("it has settings");
    row("a key of a history of 1,024 versions", &grown, 1024, some);
    println!();
}

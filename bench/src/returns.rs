//! A return beside the same deletes and inserts as single calls, each of which
//! judges (2026-07). The bytes are equal after both, which is tested first.

use std::hint::black_box;

use hostile::measure::{in_turn, times, told};
use reference::layout::{HIGHEST_KEY, PAGE_BYTES};
use reference::{calls, number, unjudged};

use crate::proved;

const SETTINGS: u32 = 5000;

/// Key, kind, old value, new value.
type Difference<'a> = &'a [u32];

/// 5,000 settings evenly over all keys in version 1, of which `changed` have
/// another value in version 2; version 3 is open.
fn changed_store(pages: usize, changed: u32) -> Vec<u8> {
    let mut bytes = vec![0; pages * PAGE_BYTES];
    assert_eq!(calls::fresh(&mut bytes), number::DONE);
    let key = |place| HIGHEST_KEY / 2 / SETTINGS * place;
    assert_eq!(unjudged::open(&mut bytes), number::DONE);
    for place in 0..SETTINGS {
        assert_eq!(unjudged::insert(&mut bytes, key(place), 1), number::DONE);
    }
    assert_eq!(unjudged::raw_commit(&mut bytes), number::DONE);
    assert_eq!(unjudged::open(&mut bytes), number::DONE);
    for place in (0..changed).map(|place| SETTINGS / changed * place) {
        assert_eq!(unjudged::delete(&mut bytes, key(place)), number::DONE);
        assert_eq!(unjudged::insert(&mut bytes, key(place), 2), number::DONE);
    }
    assert_eq!(unjudged::raw_commit(&mut bytes), number::DONE);
    assert_eq!(unjudged::open(&mut bytes), number::DONE);
    bytes
}

/// The deletes and then the inserts that a list of differences asks for.
fn single_calls(bytes: &mut [u8], list: &[u32]) {
    let differences = || list.chunks(4);
    let goes = |difference: &Difference| difference[1] != 0;
    let comes = |difference: &Difference| difference[1] != 1;
    for difference in differences().filter(goes) {
        assert_eq!(proved::delete(bytes, difference[0]), number::DONE);
    }
    for difference in differences().filter(comes) {
        let given = proved::insert(bytes, difference[0], difference[3]);
        assert_eq!(given, number::DONE);
    }
}

fn row(pages: usize, changed: u32) {
    let bytes = changed_store(pages, changed);
    let mut list = vec![0; 4 * SETTINGS as usize];
    let (given, count) = proved::difference(&bytes, 3, 1, &mut list);
    assert_eq!((given, count), (number::DONE, changed as usize));
    let list = &list[..4 * count];
    let (mut one, mut other) = (bytes.clone(), bytes.clone());
    assert_eq!(proved::return_to(&mut one, 1), number::DONE);
    single_calls(&mut other, list);
    assert!(one == other);
    let mut judged = bytes.clone();
    let taken = in_turn(&mut [
        &mut || {
            one.copy_from_slice(black_box(&bytes));
            proved::return_to(&mut one, 1).into()
        },
        &mut || {
            other.copy_from_slice(black_box(&bytes));
            single_calls(&mut other, list);
            other[0].into()
        },
        &mut || proved::open(black_box(&mut judged)).into(),
    ]);
    println!(
        "| {pages} pages, {changed} of 5,000 settings changed | {} | {} | {} | {} | {} |",
        2 * changed,
        times(taken.ratio(1, 0)),
        told(taken.of(0)),
        told(taken.of(1)),
        told(taken.of(2))
    );
}

pub fn returns() {
    println!("## Returns\n");
    println!("How many times as long the same deletes and inserts take as single calls.\n");
    println!("| | steps | ratio | a return | single calls | judging |\n|---|---|---|---|---|---|");
    for (pages, changed) in [
        (2048, 5000),
        (2048, 500),
        (2048, 50),
        (2048, 5),
        (4096, 5000),
    ] {
        row(pages, changed);
    }
    println!();
}

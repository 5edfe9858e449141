//! A commit beside the judging that it does first: what it takes to tell
//! whether anything changed (2026-05).
//!
//! A commit that is done changes the header alone, which is put back after
//! each. Judging is an open on the same bytes, refused by number 8.

use std::hint::black_box;

use hostile::measure::{in_turn, times, told};
use hostile::stores;
use reference::layout::HIGHEST_KEY;
use reference::{number, store, unjudged, walk};

use crate::proved;

const NOTHING_CHANGED: u32 = 15;
const CHANGES: u32 = 1000;

/// Bytes of the header's fields.
const HEADER: usize = 11;

pub fn commits() {
    println!("## Commits\n");
    println!("Times as long as judging alone; then a commit, and judging.\n");
    println!("| | number | ratio | a commit | judging |\n|---|---|---|---|---|");
    for pages in [256, 4096] {
        let mut nothing = stores::grown_by(pages, 16, 2 * pages);
        assert_eq!(unjudged::open(&mut nothing), number::DONE);
        row(&format!("{pages} pages, nothing done"), &nothing);
        for wanted in [1, CHANGES] {
            let (mut changed, keys) = inserted(&nothing, wanted);
            row(&format!("{pages} pages, {} inserts", keys.len()), &changed);
            for key in &keys {
                assert_eq!(unjudged::delete(&mut changed, *key), number::DONE);
            }
            let name = format!("{pages} pages, {} inserts undone", keys.len());
            row(&name, &changed);
        }
    }
    println!();
}

/// As many as `wanted` keys that were absent, evenly over all keys, inserted
/// as long as there are pages; those that were.
fn inserted(bytes: &[u8], wanted: u32) -> (Vec<u8>, Vec<u32>) {
    let mut bytes = bytes.to_vec();
    let open = store::header(&bytes).last();
    let apart = HIGHEST_KEY / 2 / wanted;
    let mut keys = Vec::new();
    for place in (0..wanted).map(|place| apart * place + apart / 2) {
        let key = (place..)
            .find(|key| walk::lookup(&bytes, *key, open).is_none())
            .expect("most keys are absent");
        if unjudged::insert(&mut bytes, key, 7) == number::DONE {
            keys.push(key);
        }
    }
    (bytes, keys)
}

fn row(name: &str, bytes: &[u8]) {
    let (mut lent, mut judged) = (bytes.to_vec(), bytes.to_vec());
    let given = proved::commit(&mut lent);
    assert!(matches!(given, number::DONE | NOTHING_CHANGED));
    let header = &bytes[..HEADER];
    lent[..HEADER].copy_from_slice(header);
    let taken = in_turn(&mut [
        &mut || {
            let number = proved::commit(black_box(&mut lent));
            lent[..HEADER].copy_from_slice(header);
            number.into()
        },
        &mut || proved::open(black_box(&mut judged)).into(),
    ]);
    println!(
        "| {name} | {given} | {} | {} | {} |",
        times(taken.ratio(0, 1)),
        told(taken.of(0)),
        told(taken.of(1))
    );
}

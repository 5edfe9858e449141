//! What differs between two versions, beside two ranges and a merge in Rust. A
//! difference judges first, as does a commit that number 7 refuses: that is taken
//! off. A range judges what it reads, which is a part of it.

use std::{cmp::Ordering, hint::black_box};

use hostile::measure::{in_turn, times, told};
use hostile::stores::grown_by;
use reference::{layout::HIGHEST_KEY, number, unjudged};

use crate::proved;

/// With `versions` versions more, each with one insert of an absent key.
fn inserted(mut bytes: Vec<u8>, versions: u32) -> Vec<u8> {
    for version in 1..=versions {
        assert_eq!(unjudged::open(&mut bytes), number::DONE);
        let insert = |key| unjudged::insert(&mut bytes, key, version) == number::DONE;
        assert!((7919 * version..).take(9).any(insert));
        assert_eq!(unjudged::raw_commit(&mut bytes), number::DONE);
    }
    bytes
}

/// What differs between two lists of settings, key and value each.
fn merged(old: &[u32], new: &[u32]) -> Vec<u32> {
    let key = |list: &[u32], at| list.get(at).copied().unwrap_or(HIGHEST_KEY + 1);
    let (mut at, mut by, mut told) = (0, 0, Vec::new());
    while at < old.len() || by < new.len() {
        let (one, other) = (key(old, at), key(new, by));
        match one.cmp(&other) {
            Ordering::Less => told.extend([one, 1, old[at + 1], 0]),
            Ordering::Greater => told.extend([other, 0, 0, new[by + 1]]),
            Ordering::Equal if old[at + 1] == new[by + 1] => {}
            Ordering::Equal => told.extend([one, 2, old[at + 1], new[by + 1]]),
        }
        at += 2 * usize::from(one <= other);
        by += 2 * usize::from(other <= one);
    }
    told
}

fn row(name: &str, bytes: &[u8], old: u32, new: u32) {
    let ranged = |version, list: &mut [u32]| proved::range(black_box(bytes), version, list).1;
    let [mut one, mut other] = [old, new].map(|version| vec![0; 2 * ranged(version, &mut [])]);
    let settings = ranged(old, &mut one) + ranged(new, &mut other);
    let wanted = merged(&one, &other);
    let [before, after] = [&one, &other].map(Vec::clone);
    let (mut list, mut lent) = (vec![0; wanted.len()], bytes.to_vec());
    let (given, count) = proved::difference(bytes, old, new, &mut list);
    assert_eq!((given, 4 * count, &list), (0, wanted.len(), &wanted));
    let mut differ = || proved::difference(black_box(bytes), old, new, &mut list).1;
    let mut judge = || proved::commit(black_box(&mut lent));
    let taken = in_turn(&mut [
        &mut || (differ() + differ()) as u64,
        &mut || (judge() + judge()).into(),
        &mut || (ranged(old, &mut one) + ranged(new, &mut other)) as u64,
        &mut || merged(black_box(&before), &after).len() as u64,
    ]);
    let (differ, ranges, merge) = (taken.more(0, 1)[1] / 2.0, taken.of(2), taken.of(3));
    let ratios = [differ / ranges, differ / (ranges + merge)].map(times);
    let each = [differ, ranges, merge, taken.of(1) / 2.0].map(told);
    let [ratios, each] = [&ratios[..], &each].map(|figures| figures.join(" | "));
    println!("| {name} | {settings} | {count} | {ratios} | {each} |");
}

pub fn differences() {
    println!("## Differences\n\nTimes as long as two ranges, and as both with a merge.\n");
    println!("| | settings | differ | ranges | and merge | a difference | two ranges | merge | judging |\n|---|---|---|---|---|---|---|---|---|");
    for (pages, versions) in [(256, 60), (256, 1000), (4096, 60), (4096, 1000)] {
        let one = inserted(grown_by(pages, 1, 2 * pages), versions - 1);
        let many = inserted(grown_by(pages, versions as usize - 1, 4 * pages), 1);
        for (how, bytes) in [("one change each", one), ("many", many)] {
            for (which, old) in [("neighbours", versions - 1), ("first and last", 1)] {
                let name = format!("{pages} pages, {versions} versions, {how}: {which}");
                row(&name, &bytes, old, versions);
            }
        }
    }
    println!();
}

//! The proved library beside the same work in Rust, as ratios of one run.
//! `bench/run` builds and runs it; docs/BENCH.md tells what follows.

mod bitwise;
mod chart;
mod commits;
mod curves;
mod differences;
mod judging;
mod lives;
mod lookups;
mod mixed;
mod plain;
mod plot;
mod program;
mod proved;
mod prunes;
mod returns;
mod svg;
mod updates;
mod versions;
mod worst;

use std::hint::black_box;

use hostile::measure::{in_turn, times, told, Times};
use hostile::stores;
use reference::foreign::raise_current;
use reference::image::Image;
use reference::layout::{HIGHEST_VERSION, PAGE_BYTES};
use reference::rng::Rng;
use reference::{calls, store};

/// All tables, or the one that the first argument names.
fn main() {
    let tables: [(&str, fn()); 17] = [
        ("bytes", byte_layer),
        ("quick", judging::judging),
        ("check", check_of_histories),
        ("empty", empty_commits),
        ("commits", commits::commits),
        ("lookups", lookups::lookups),
        ("lives", lives::lives),
        ("differences", differences::differences),
        ("returns", returns::returns),
        ("hostile", hostile_stores),
        ("worst", worst::worst),
        ("updates", updates::updates),
        ("program", program::program),
        ("prunes", prunes::prunes),
        ("mixed", mixed::mixed),
        ("versions", versions::versions),
        ("plot", plot::plot),
    ];
    let wanted = std::env::args().nth(1);
    for (name, print) in tables {
        if wanted.as_deref().is_none_or(|wanted| wanted == name) {
            print();
        }
    }
}

/// Entries in the bytes from which fields are read.
const ENTRIES: usize = 1000;

fn byte_layer() {
    println!("## Fields and pages\n");
    println!(
        "Times as long as the same in Rust; then one proved, one bit by bit, one by whole bytes.\n"
    );
    println!("| | bit by bit in Rust | whole bytes in Rust | proved | bit by bit | whole bytes |");
    println!("|---|---|---|---|---|---|");
    let mut rng = Rng::new(1);
    let bytes: Vec<u8> = (0..16 + 12 * (ENTRIES + 1))
        .map(|_| rng.word() as u8)
        .collect();
    for (name, at, width) in [
        ("key", 0, 24),
        ("start", 24, 20),
        ("end", 44, 20),
        ("value", 64, 32),
    ] {
        let name = format!("read a field: {name}, {width} bits");
        row(&name, ENTRIES, read_fields(&bytes, 128 + at, width));
    }
    row("read an entry", ENTRIES, read_entries(&bytes));
    row("write a page of 20 entries", 1, write_pages());
    println!();
}

/// One line of the table; each call does a thing `count` times.
fn row(name: &str, count: usize, taken: Times) {
    let each = |way| told(taken.of(way) / count as f64);
    println!(
        "| {name} | {} | {} | {} | {} | {} |",
        times(taken.ratio(0, 1)),
        times(taken.ratio(0, 2)),
        each(0),
        each(1),
        each(2)
    );
}

fn read_fields(bytes: &[u8], at: usize, width: usize) -> Times {
    let sum = plain::fields(bytes, at, width, ENTRIES);
    assert_eq!(proved::fields(bytes, at, width, ENTRIES), sum);
    assert_eq!(bitwise::fields(bytes, at, width, ENTRIES), sum);
    let (at, width) = (black_box(at), black_box(width));
    in_turn(&mut [
        &mut || proved::fields(black_box(bytes), at, width, ENTRIES),
        &mut || bitwise::fields(black_box(bytes), at, width, ENTRIES),
        &mut || plain::fields(black_box(bytes), at, width, ENTRIES),
    ])
}

fn read_entries(bytes: &[u8]) -> Times {
    let sum = plain::entries(bytes, ENTRIES);
    assert_eq!(proved::entries(bytes, ENTRIES), sum);
    assert_eq!(bitwise::entries(bytes, ENTRIES), sum);
    in_turn(&mut [
        &mut || proved::entries(black_box(bytes), ENTRIES),
        &mut || bitwise::entries(black_box(bytes), ENTRIES),
        &mut || plain::entries(black_box(bytes), ENTRIES),
    ])
}

fn write_pages() -> Times {
    type Fill = fn(&mut [u8], u32, u32, u32, usize) -> bool;
    let ways: [Fill; 3] = [proved::fill, bitwise::fill, plain::fill];
    let page = |fill: Fill| {
        let mut page = [0xA5; PAGE_BYTES];
        assert!(fill(&mut page, 0xABCDE, 0x123456, 0x89AB_CDEF, 20));
        page
    };
    assert!(ways.iter().all(|way| page(*way) == page(ways[0])));
    let timed = |fill: Fill| {
        let mut page = [0; PAGE_BYTES];
        move || fill(black_box(&mut page), black_box(0xABCDE), 0x123456, 7, 20).into()
    };
    let [mut proved, mut bitwise, mut plain] = ways.map(timed);
    in_turn(&mut [&mut proved, &mut bitwise, &mut plain])
}

/// Judged by both, with this answer.
pub fn judged(store: &[u8], verdict: (u32, u32)) -> Times {
    assert_eq!(calls::check(store), verdict);
    assert_eq!(proved::check(store), verdict);
    in_turn(&mut [
        &mut || proved::check(black_box(store)).0.into(),
        &mut || calls::check(black_box(store)).0.into(),
    ])
}

/// Pages in use, and versions at which something starts or ends.
pub fn shape(bytes: &[u8]) -> (usize, usize) {
    let image = Image::read(bytes);
    (image.used().count(), image.turning_points().len())
}

fn check_of_histories() {
    println!("## Check, rule by rule\n");
    println!("Times as long as the reference program's check, on stores that break rule 6 at the last version.\n");
    println!(
        "| pages | in use | versions walked | ratio | proved | reference | proved, a used page and version |"
    );
    println!("|---|---|---|---|---|---|---|");
    for (pages, versions) in [
        (16, 2),
        (16, 32),
        (256, 4),
        (256, 256),
        (256, 1700),
        (4096, 4),
        (4096, 32),
    ] {
        let store = stores::with_stray(&stores::grown(pages - 1, versions));
        let (used, turning) = shape(&store);
        let taken = judged(&store, (4, 6));
        println!(
            "| {pages} | {used} | {turning} | {} | {} | {} | {} |",
            times(taken.ratio(0, 1)),
            told(taken.of(0)),
            told(taken.of(1)),
            told(taken.of(0) / (used * turning) as f64)
        );
    }
    println!();
}

fn empty_commits() {
    let store = stores::grown(255, 16);
    let mut later = store.clone();
    raise_current(&mut later, HIGHEST_VERSION - 1);
    let more = store::header(&later).current - store::header(&store).current;
    let (store, later) = (stores::with_stray(&store), stores::with_stray(&later));
    assert_eq!(proved::check(&later), (4, 6));
    let taken = in_turn(&mut [
        &mut || proved::check(black_box(&later)).0.into(),
        &mut || proved::check(black_box(&store)).0.into(),
    ]);
    println!("## Empty commits\n");
    println!("| | ratio | with them | without |\n|---|---|---|---|");
    println!(
        "| 256 pages, 16 versions, then {more} empty commits | {} | {} | {} |\n",
        times(taken.ratio(0, 1)),
        told(taken.of(0)),
        told(taken.of(1))
    );
}

fn hostile_stores() {
    println!("## Routers that share children\n");
    println!("| | pages | broken rule | ratio | proved | reference |");
    println!("|---|---|---|---|---|---|");
    for (name, rule, store) in [
        (
            "a page a level, twenty routers each to the next",
            4,
            stores::shared_children(),
        ),
        (
            "60,000 routers to one empty leaf",
            5,
            stores::one_empty_leaf(3000),
        ),
    ] {
        let taken = judged(&store, (4, rule));
        println!(
            "| {name} | {} | {rule} | {} | {} | {} |",
            store.len() / PAGE_BYTES,
            times(taken.ratio(0, 1)),
            told(taken.of(0)),
            told(taken.of(1))
        );
    }
    println!();
}

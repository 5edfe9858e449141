//! What a range over all keys takes on stores made to keep it busy, with no room in the
//! list: pages that the counting port visits, and processor time of the proved library.
//! The table of docs/CHECK-COST.md.

use std::hint::black_box;

use hostile::measure::{in_turn, told};
use hostile::ranges::{most_gone, range, Asked};
use hostile::stores::spread::{rows, spread, HIGH};
use reference::edition::Edition;

fn main() {
    println!("| store | pages | count | judged | gone down | at most | time |");
    println!("|---|---|---|---|---|---|---|");
    for (name, numbers) in rows() {
        let store = spread(numbers).expect(name);
        let asked = Asked {
            low: 0,
            high: HIGH,
            version: 1,
        };
        let ((number, count, _), work) = range(&store, asked, 0);
        let given = host::range(&store, asked.low, asked.high, asked.version, &mut []);
        assert_eq!(given, (number, count as usize), "{name}");
        let mut way = || {
            let given = host::range(black_box(&store), 0, HIGH, 1, &mut []);
            given.1 as u64
        };
        let time = told(in_turn(&mut [&mut way]).of(0));
        let pages = store.len() / Edition::of(&store).page_bytes;
        let most = most_gone(&store, asked.version);
        println!(
            "| {name} | {pages} | {count} | {} | {} | {most} | {time} |",
            work.judged, work.gone
        );
    }
}

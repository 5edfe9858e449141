//! What a conversion takes, beside the independent program's replay of every
//! version. `cargo run --release --example conversion`; processor time is the
//! wall's where nothing else runs.

use std::time::Instant;

use reference::convert::literally;
use reference::edition::FIRST;
use reference::layout::Header;
use reference::rng::Rng;
use reference::store::{header, write_fresh, write_header};
use reference::unjudged::{abandon, commit, delete, insert, open};

/// A store filled with releases that each change one of so many settings.
fn filled(pages: usize, held: usize) -> Vec<u8> {
    let mut rng = Rng::new(1);
    let mut store = vec![0; pages * 256];
    write_fresh(&FIRST, &mut store);
    let mut keys = Vec::new();
    open(&mut store);
    while keys.len() < held {
        let key = rng.below(16_776_960);
        if insert(&mut store, key, 0) == 0 {
            keys.push(key);
        }
    }
    commit(&mut store);
    loop {
        let key = keys[rng.below(held as u32) as usize];
        open(&mut store);
        if delete(&mut store, key).max(insert(&mut store, key, rng.word())) != 0 {
            abandon(&mut store);
            return store;
        }
        commit(&mut store);
    }
}

fn time(what: &str, work: impl FnOnce() -> u32) {
    let start = Instant::now();
    let number = work();
    println!("{what}: {number}, {:.3} s", start.elapsed().as_secs_f64());
}

fn main() {
    for (pages, held) in [(256, 50), (256, 500), (4096, 500)] {
        let source = filled(pages, held);
        let versions = header(&source).current;
        let mut target = vec![0; source.len() * 5 / 4 / 512 * 512];
        let name = format!("{pages} pages, {held} settings, {versions} versions");
        time(&format!("{name}: the library"), || {
            host::convert(&source, &mut target)
        });
        if pages == 256 {
            time(&format!("{name}: each version replayed"), || {
                literally(&source, &mut target)
            });
        }
    }
    let mut source = filled(256, 50);
    let short = header(&source);
    write_header(
        &mut source,
        Header {
            current: 1_000_000,
            ..short
        },
    );
    let mut target = vec![0; source.len() * 5 / 4];
    time(
        "the first again, and empty versions up to 1,000,000",
        || host::convert(&source, &mut target),
    );
}

//! What a store tells of itself: the cases of `tests/reference` by both programs;
//! beside what the independent program reads in its bytes and what its plain
//! settings machine has.

#[path = "common/mod.rs"]
mod beside;

#[path = "../../reference/tests/common/mod.rs"]
mod common;

#[path = "../../reference/tests/cases/state.rs"]
mod state;

use std::collections::BTreeMap;

use beside::calls;
use beside::rounds;
use beside::stores::stores_of;
use host::{Proved, State};
use reference::edition::{Edition, EDITIONS, FIRST};
use reference::engine::Engine;
use reference::history::{History, KINDS};
use reference::image::Image;

/// By the reference: check's number, and where it is 0, what the store's image
/// holds.
fn read(bytes: &[u8]) -> (u32, State) {
    let number = reference::calls::check(bytes).0;
    if number != 0 {
        return (number, State::default());
    }
    let image = Image::read(bytes);
    let state = State {
        pages: image.header.page_count,
        current: image.header.current,
        open: u32::from(image.header.open),
        roots: image.slots.len() as u32,
        edition: u32::from(image.edition().number),
        free: (image.pages.len() - image.used().count()) as u32,
        oldest: image.header.oldest,
    };
    (0, state)
}

#[test]
fn told_as_it_is_read_on_bytes_of_every_kind() {
    let mut tally = BTreeMap::new();
    for seed in 0..rounds(40) {
        for edition in EDITIONS {
            for bytes in stores_of(edition, seed) {
                let told = host::state(&bytes);
                assert_eq!(told, read(&bytes), "seed {seed}");
                *tally.entry(told.0).or_insert(0u64) += 1;
            }
        }
    }
    println!("numbers given, times: {tally:?}");
    for number in [0, 1, 2, 4] {
        assert!(tally.contains_key(&number), "{number}: {tally:?}");
    }
}

/// After each call of a history: the image's numbers, and the machine's current
/// version, open update and oldest version.
fn along(edition: &'static Edition, seed: u64) -> Vec<State> {
    let pages = 6 + 7 * (seed as usize % 5);
    let mut bytes = vec![0xEE; edition.page_bytes * pages];
    let mut history = History::of(edition, seed, KINDS[seed as usize % 4], pages);
    let mut states = Vec::new();
    for _ in 0..150 {
        let call = history.next_call();
        let mut list = vec![0; call.list_length()];
        let answer = Proved.apply(call, &mut bytes, &mut list);
        history.observe(call, &answer);
        let (number, state) = host::state(&bytes);
        assert_eq!((number, state), read(&bytes), "seed {seed}: {call:?}");
        let model = history.model();
        let machine = (model.current, u32::from(model.is_open()), model.oldest);
        assert_eq!(
            (state.current, state.open, state.oldest),
            machine,
            "seed {seed}: {call:?}"
        );
        states.push(state);
    }
    states
}

#[test]
fn told_after_each_call_of_a_history() {
    for edition in EDITIONS {
        let states: Vec<State> = (0..rounds(12))
            .flat_map(|seed| along(edition, seed))
            .collect();
        assert!(states
            .iter()
            .all(|state| state.edition == u32::from(edition.number)));
        assert!(states
            .iter()
            .any(|state| state.open == 1 && state.current > 0));
        assert!(states.iter().any(|state| state.free == 0));
        assert!(states.iter().any(|state| state.roots > 1));
        let pruned = states.iter().any(|state| state.oldest > 0);
        assert_eq!(pruned, edition != &FIRST);
    }
}

#[test]
fn an_update_told_open_is_one_that_an_abandon_ends() {
    let mut bytes = vec![0; 6 * FIRST.page_bytes];
    assert_eq!(host::fresh(&mut bytes), 0);
    for open in [0, 1, 0] {
        let (number, state) = host::state(&bytes);
        assert_eq!((number, state.open), (0, open));
        assert_eq!(host::abandon(&mut bytes.clone()) == 0, open == 1);
        match open {
            0 => host::open(&mut bytes),
            _ => host::abandon(&mut bytes),
        };
    }
}

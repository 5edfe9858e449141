//! The plain engine (2026-10) beside the tree: histories from a fresh store, every
//! call through both; each of its numbers by hand; its room to the number; and states
//! that are none.

mod common;

use std::panic::{catch_unwind, AssertUnwindSafe};

use common::plainly::{Both, Fault, Plain};
use common::rounds;
use host::plain::{Engine, State};
use reference::edition::{Edition, FIRST, SECOND};
use reference::engine::Call;
use reference::history::{History, KINDS};
use reference::rng::Rng;

const FIRST_BENCH_KEY: u32 = 16_776_960;
const HIGHEST_KEY: u32 = 16_777_215;
const HIGHEST_VERSION: u32 = 1_048_574;
const ALIVE: u32 = 1_048_575;

/// Both, with a fresh store of an edition.
fn fresh(edition: &'static Edition, pages: usize) -> Both {
    let mut both = Both::lent(vec![0xEE; pages * edition.page_bytes]);
    both.done(&[making(edition)]);
    both
}

fn making(edition: &Edition) -> Call {
    match edition == &FIRST {
        true => Call::Fresh,
        false => Call::FreshSecond,
    }
}

// ---- histories

/// A reading of what a history has: with a list that is long enough, or not quite.
fn reading(history: &History, rng: &mut Rng) -> Call {
    let model = history.model();
    let (old, last) = (model.oldest, model.last());
    let (one, other) = (rng.between(old, last), rng.between(old, last));
    let call = match rng.below(4) {
        0 => Call::Range(0, HIGHEST_KEY, one, 0),
        1 => Call::Difference(one, other, 0),
        kind => {
            let keys: Vec<u32> = model.at(one).keys().copied().collect();
            let key = *rng.pick(&keys).unwrap_or(&FIRST_BENCH_KEY);
            match kind {
                2 => Call::Life(key, 0),
                _ => Call::Lookup(key, other),
            }
        }
    };
    let wanted = match call {
        Call::Range(low, high, version, _) => model.listed(low, high, version).len(),
        Call::Difference(old, new, _) => model.differing(old, new).len(),
        Call::Life(key, _) => model.lived(key).len(),
        _ => 0,
    };
    call.with_list((wanted + rng.below(3) as usize).saturating_sub(1))
}

/// A call that wants an update open.
fn early(history: &History, rng: &mut Rng) -> Call {
    let current = history.model().current;
    match rng.below(5) {
        0 => Call::Commit,
        1 => Call::Abandon,
        2 => Call::Insert(rng.below(HIGHEST_KEY), 1),
        3 => Call::Delete(rng.below(HIGHEST_KEY)),
        _ => Call::Return(rng.between(history.model().oldest, current)),
    }
}

/// So many calls of a history, and a reading behind every fourth.
fn run(both: &mut Both, history: &mut History, seed: u64, calls: usize) {
    let mut rng = Rng::new(seed);
    for _ in 0..calls {
        let call = history.next_call();
        let answer = both.call(call);
        history.observe(call, &answer);
        if rng.once_in(4) {
            both.call(reading(history, &mut rng));
        }
        if !history.model().is_open() {
            both.call(early(history, &mut rng));
        }
    }
}

fn histories(edition: &'static Edition, seeds: u64, calls: usize) {
    let mut all = Both::lent(Vec::new());
    for seed in 0..rounds(seeds) {
        let pages = 6 + 9 * (seed as usize % 7);
        let mut history = History::of(edition, seed, KINDS[seed as usize % 4], pages);
        all.tree = vec![0xEE; pages * edition.page_bytes];
        run(&mut all, &mut history, seed, calls);
    }
    println!("numbers given, times: {:?}", all.given);
    println!("those of returns: {:?}", all.returns);
    for number in [0, 5, 6, 7, 8, 10, 11, 12, 14, 15] {
        assert!(all.given.contains_key(&number), "{number} was never given");
    }
    for number in [0, 6, 7, 12] {
        assert!(all.returns.contains_key(&number), "{number}: no return's");
    }
}

#[test]
fn histories_of_edition_1() {
    histories(&FIRST, 28, 300);
}

#[test]
fn histories_of_edition_2() {
    histories(&SECOND, 16, 400);
}

/// Whether histories of edition 2 show that the plain engine is wrong so.
fn is_caught(fault: Fault) -> bool {
    (0..16).any(|seed| {
        let mut history = History::of(&SECOND, seed, KINDS[seed as usize % 4], 30);
        let mut both = Both::lent(vec![0xEE; 30 * SECOND.page_bytes]);
        both.fault = fault;
        let whole = AssertUnwindSafe(|| run(&mut both, &mut history, seed, 200));
        catch_unwind(whole).is_err()
    })
}

/// Each call that changes, made wrong in the plain engine alone.
const FAULTS: [(&str, Fault); 7] = [
    ("an insert of another value", |call, _, left| {
        if let Call::Insert(..) = call {
            left.items[4 * left.state.count as usize - 1] ^= 1;
        }
    }),
    ("an item alive at its end", |call, lent, left| {
        let items = 4 * left.state.count as usize;
        for item in left.items[..items].chunks_exact_mut(4) {
            let ended = matches!(call, Call::Delete(_)) && item[2] == lent.state.current + 1;
            item[2] += u32::from(ended);
        }
    }),
    ("a return that changes nothing", |call, lent, left| {
        if let Call::Return(_) = call {
            *left = lent.clone();
        }
    }),
    ("an abandon that leaves the items", |call, lent, left| {
        if call == Call::Abandon {
            left.items.clone_from(&lent.items);
            left.state.count = lent.state.count;
        }
    }),
    ("a commit that raises no version", |call, lent, left| {
        if call == Call::Commit {
            left.state.current = lent.state.current;
        }
    }),
    ("a prune that raises no version", |call, lent, left| {
        if let Call::Prune(_) = call {
            left.state.oldest = lent.state.oldest;
        }
    }),
    ("a prune that drops the last item too", |call, _, left| {
        if let (Call::Prune(_), Some(fewer)) = (call, left.state.count.checked_sub(1)) {
            left.state.count = fewer;
        }
    }),
];

#[test]
fn a_fault_in_one_shows() {
    assert!(!is_caught(|_, _, _| {}));
    for (name, fault) in FAULTS {
        assert!(is_caught(fault), "{name}");
    }
}

/// One version, in which five of sixteen settings change, so that the root moves.
fn move_root(both: &mut Both, value: u32) -> u32 {
    both.done(&[Call::Open]);
    both.done(&[1, 2, 3, 4, 5].map(Call::Delete));
    both.done(&[1, 2, 3, 4].map(|key| Call::Insert(key, value)));
    both.number(Call::Insert(5, value))
}

/// The 257th root: an insert, which is left out, and a return, which is an abandon.
#[test]
fn thirteen() {
    let mut both = fresh(&FIRST, 300);
    both.done(&[Call::Open]);
    for key in 1..=16 {
        both.done(&[Call::Insert(key, 0)]);
    }
    both.done(&[Call::Commit]);
    for version in 2..=256 {
        assert_eq!(move_root(&mut both, version), 0);
        both.done(&[Call::Commit]);
    }
    assert_eq!(move_root(&mut both, 257), 13);
    let range = Call::Range(0, HIGHEST_KEY, 257, 40);
    assert_eq!(both.call(range).count, 15);
    both.done(&[Call::Commit, Call::Open]);
    let before = both.plain.held().to_vec();
    both.done(&[Call::Delete(16)]);
    assert_eq!(both.number(Call::Return(1)), 13);
    assert_eq!(both.plain.held(), before);
    assert_eq!(both.number(Call::Abandon), 7);
    both.done(&[range, Call::Difference(1, 257, 40), Call::Life(5, 900)]);
}

// ---- each number by hand, on both

#[test]
fn keys_and_versions() {
    let mut both = fresh(&SECOND, 6);
    // 5 goes before 7
    assert_eq!(both.number(Call::Insert(FIRST_BENCH_KEY, 1)), 5);
    assert_eq!(both.number(Call::Insert(FIRST_BENCH_KEY - 1, 1)), 7);
    assert_eq!(both.number(Call::Delete(HIGHEST_KEY + 1)), 5);
    assert_eq!(both.number(Call::Delete(HIGHEST_KEY)), 7);
    both.done(&[Call::Open, Call::Insert(FIRST_BENCH_KEY - 1, u32::MAX)]);
    for key in [FIRST_BENCH_KEY, HIGHEST_KEY, HIGHEST_KEY + 1, u32::MAX] {
        assert_eq!(both.number(Call::Insert(key, 1)), 5);
    }
    // delete, lookup, range and life take bench keys
    assert_eq!(both.number(Call::Delete(HIGHEST_KEY)), 11);
    assert_eq!(both.number(Call::Lookup(HIGHEST_KEY, 1)), 0);
    assert_eq!(both.number(Call::Lookup(HIGHEST_KEY + 1, 9)), 5);
    assert_eq!(both.number(Call::Life(HIGHEST_KEY, 0)), 0);
    assert_eq!(both.number(Call::Life(HIGHEST_KEY + 1, 0)), 5);
    for (low, high) in [(9, 8), (0, HIGHEST_KEY + 1), (u32::MAX, u32::MAX)] {
        assert_eq!(both.number(Call::Range(low, high, 9, 2)), 5);
    }
    for version in [2, HIGHEST_VERSION, ALIVE, u32::MAX] {
        assert_eq!(both.number(Call::Lookup(1, version)), 6);
        assert_eq!(both.number(Call::Range(0, 1, version, 2)), 6);
        assert_eq!(both.number(Call::Difference(version, 1, 4)), 6);
        assert_eq!(both.number(Call::Difference(1, version, 4)), 6);
        assert_eq!(both.number(Call::Return(version)), 6);
    }
    // the open version can be read, and not returned to
    assert_eq!(both.number(Call::Difference(1, 0, 4)), 0);
    assert_eq!(both.number(Call::Return(1)), 6);
}

#[test]
fn updates() {
    let mut both = fresh(&FIRST, 6);
    for call in [Call::Commit, Call::Abandon, Call::Delete(1)] {
        assert_eq!(both.number(call), 7, "{call:?}");
    }
    assert_eq!(both.number(Call::Return(0)), 7);
    assert_eq!(both.number(Call::Return(1)), 6);
    both.done(&[Call::Open]);
    assert_eq!(both.number(Call::Open), 8);
    assert_eq!(both.number(Call::Commit), 15);
    both.done(&[Call::Insert(7, 70)]);
    assert_eq!(both.number(Call::Insert(7, 71)), 10);
    assert_eq!(both.number(Call::Delete(8)), 11);
    // "An insert undone by a delete counts as no change."
    both.done(&[Call::Delete(7)]);
    assert_eq!((both.number(Call::Commit), both.plain.state.count), (15, 0));
    both.done(&[Call::Insert(7, 70), Call::Commit, Call::Open]);
    // "A key deleted and inserted again with the same value .. shows one stretch."
    both.done(&[Call::Delete(7), Call::Insert(7, 70)]);
    assert_eq!(both.number(Call::Commit), 15);
    both.done(&[Call::Insert(8, 80), Call::Commit]);
    assert_eq!(both.call(Call::Life(7, 3)).count, 1);
    assert_eq!(both.call(Call::Life(8, 3)).count, 1);
}

fn two_releases() -> Both {
    two_releases_of(&FIRST)
}

/// Two releases: 7 and 9, then 7 with another value and 8.
fn two_releases_of(edition: &'static Edition) -> Both {
    let mut both = fresh(edition, 8);
    both.done(&[Call::Open, Call::Insert(7, 70), Call::Insert(9, 90)]);
    both.done(&[Call::Commit, Call::Open, Call::Delete(7)]);
    both.done(&[Call::Insert(7, 71), Call::Delete(9), Call::Insert(8, 80)]);
    both.done(&[Call::Commit]);
    both
}

#[test]
fn lists_just_enough_and_one_number_short() {
    let mut both = two_releases();
    let lists = [
        (Call::Range(0, HIGHEST_KEY, 2, 0), 2, 2),
        (Call::Difference(1, 2, 0), 3, 4),
        (Call::Difference(2, 1, 0), 3, 4),
        (Call::Life(7, 0), 2, 3),
    ];
    for (call, count, each) in lists {
        for room in 0..each * count + 2 {
            let answer = both.call(call.with_list(room));
            let number = if room < each * count { 14 } else { 0 };
            assert_eq!((answer.number, answer.count), (number, count as u64));
        }
    }
    assert_eq!(both.number(Call::Range(1, 6, 2, 0)), 0);
    assert_eq!(both.number(Call::Difference(2, 2, 0)), 0);
    assert_eq!(both.number(Call::Life(10, 0)), 0);
}

#[test]
fn an_abandon_leaves_the_items_as_they_were() {
    let mut both = two_releases();
    let before = both.plain.held().to_vec();
    let items = [[7, 1, 2, 70], [9, 1, 2, 90], [7, 2, ALIVE, 71]];
    assert_eq!(before, [items.concat(), vec![8, 2, ALIVE, 80]].concat());
    both.done(&[Call::Open, Call::Delete(7), Call::Insert(7, 1)]);
    both.done(&[Call::Delete(8), Call::Insert(1, 1), Call::Return(1)]);
    both.done(&[Call::Insert(8, 8), Call::Abandon]);
    assert_eq!(both.plain.held(), before);
}

/// What ended at or before the version goes, and 6 stands below it.
#[test]
fn prunes() {
    let mut both = two_releases_of(&SECOND);
    for version in [3, HIGHEST_VERSION, ALIVE, u32::MAX] {
        assert_eq!(both.number(Call::Prune(version)), 6);
    }
    both.done(&[Call::Open]);
    assert_eq!(both.number(Call::Prune(3)), 6);
    assert_eq!(both.number(Call::Prune(1)), 8);
    both.done(&[Call::Abandon, Call::Prune(0), Call::Prune(1)]);
    assert_eq!(both.plain.state.count, 4, "nothing had ended by then");
    both.done(&[Call::Prune(2), Call::Prune(2)]);
    let items = [[7, 2, ALIVE, 71], [8, 2, ALIVE, 80]];
    assert_eq!(both.plain.held(), items.concat());
    for version in [0, 1] {
        assert_eq!(both.number(Call::Lookup(7, version)), 6);
        assert_eq!(both.number(Call::Range(0, 9, version, 8)), 6);
        assert_eq!(both.number(Call::Difference(version, 2, 8)), 6);
        assert_eq!(both.number(Call::Difference(2, version, 8)), 6);
        assert_eq!(both.number(Call::Return(version)), 6);
        assert_eq!(both.number(Call::Prune(version)), 6);
    }
    both.done(&[Call::Life(7, 3), Call::Life(9, 0), Call::Range(0, 9, 2, 4)]);
    both.done(&[Call::Open, Call::Delete(7), Call::Commit, Call::Open]);
    both.done(&[Call::Return(2), Call::Commit, Call::Prune(3)]);
    assert_eq!(both.call(Call::Life(7, 3)).count, 1);
    assert_eq!(both.call(Call::Difference(3, 4, 4)).count, 1);
}

#[test]
fn edition_1_is_not_pruned() {
    let mut both = two_releases();
    for version in [0, 1, 3, u32::MAX] {
        assert_eq!(both.number(Call::Prune(version)), 3);
    }
}

// ---- the room, and states that are none

/// The plain engine alone, with so many numbers of room.
fn lent(both: &Both, room: usize) -> Plain {
    let mut plain = both.plain.clone();
    plain.items.resize(room, 0x5555_5555);
    plain
}

#[test]
fn an_insert_wants_room_for_one_item() {
    let mut both = two_releases();
    both.done(&[Call::Open]);
    for room in 16..20 {
        let mut plain = lent(&both, room);
        assert_eq!(plain.number(Call::Insert(1, 1)), 14);
        // 14 is the last of its numbers
        assert_eq!(plain.number(Call::Insert(7, 1)), 10);
        assert_eq!(plain.number(Call::Insert(FIRST_BENCH_KEY, 1)), 5);
        assert_eq!(plain.number(Call::Delete(7)), 0);
        assert_eq!(plain.number(Call::Abandon), 0);
        assert_eq!(plain.number(Call::Insert(1, 1)), 7);
    }
    let mut plain = lent(&both, 20);
    assert_eq!(plain.number(Call::Insert(1, 1)), 0);
    assert_eq!(plain.held()[16..], [1, 3, ALIVE, 1]);
    // what is made and ended in one update is taken out again, and makes room
    assert_eq!(plain.number(Call::Insert(2, 2)), 14);
    assert_eq!(plain.number(Call::Delete(1)), 0);
    assert_eq!(plain.number(Call::Insert(2, 2)), 0);
}

/// For the items there are and those that it will insert, be it that it takes some out.
#[test]
fn a_return_wants_room_for_its_own_inserts() {
    let mut both = two_releases();
    both.done(&[Call::Open]);
    for room in 16..24 {
        let mut plain = lent(&both, room);
        assert_eq!(plain.number(Call::Return(1)), 14, "{room}");
        assert_eq!(plain.number(Call::Return(3)), 6);
        // nothing to insert
        assert_eq!(plain.number(Call::Return(2)), 0);
        assert_eq!(plain.number(Call::Return(0)), 0);
    }
    let mut plain = lent(&both, 24);
    assert_eq!(plain.number(Call::Return(1)), 0);
    assert_eq!(plain.state.count, 6);
    both.done(&[Call::Insert(3, 3), Call::Insert(4, 4)]);
    assert_eq!(lent(&both, 31).number(Call::Return(1)), 14);
    let mut other = lent(&both, 32);
    assert_eq!(other.number(Call::Return(1)), 0);
    assert_eq!(other.held(), plain.held());
}

#[test]
fn no_room_at_all() {
    let mut engine = Engine::new(1, &mut []);
    assert_eq!((engine.open(), engine.insert(1, 1)), (0, 14));
    assert_eq!((engine.commit(), engine.return_to(0)), (15, 0));
    assert_eq!(engine.lookup(1, 1), (0, false, 0));
    assert_eq!(engine.range(0, HIGHEST_KEY, 1, &mut []), (0, 0));
    assert_eq!((engine.life(1, &mut []), engine.abandon()), ((0, 0), 0));
    assert_eq!(engine.state(), State::fresh(1));
}

/// All calls that the plain engine has, with numbers that are refused otherwise too.
fn every_call() -> Vec<Call> {
    let mut calls = vec![Call::Commit, Call::Abandon, Call::Insert(1, 1)];
    calls.extend([Call::Insert(u32::MAX, 1), Call::Delete(7), Call::Delete(1)]);
    calls.extend([Call::Return(0), Call::Return(9), Call::Lookup(7, 1)]);
    calls.extend([Call::Prune(0), Call::Prune(9)]);
    calls.extend([Call::Lookup(u32::MAX, 9), Call::Range(0, 9, 1, 8)]);
    calls.extend([Call::Range(9, 0, 9, 0), Call::Difference(0, 1, 8)]);
    calls.extend([
        Call::Difference(9, 9, 0),
        Call::Life(7, 9),
        Call::Life(9, 0),
    ]);
    calls
}

/// Every call gives 4, names no result, and changes nothing.
fn is_none(plain: &mut Plain) {
    for call in every_call() {
        let mut list = vec![3; call.list_length()];
        let answer = plain.apply(call, &mut list);
        assert_eq!(answer, reference::engine::Answer::of(4), "{call:?}");
        assert!(list.iter().all(|number| *number == 3), "{call:?}");
    }
}

#[test]
fn a_state_that_is_none() {
    for opened in [0, 1] {
        let mut both = two_releases();
        both.plain.state.opened = opened;
        // four items, and the list one number short of them
        is_none(&mut lent(&both, 15));
        is_none(&mut lent(&both, 0));
        // 2^30 items take 2^32 numbers, and as 32 bits none
        for count in [5, 1 << 30, u32::MAX / 4 + 2, u32::MAX] {
            both.plain.state.count = count;
            is_none(&mut lent(&both, 16));
        }
        both.plain.state.count = 4;
        for current in [HIGHEST_VERSION + 1, u32::MAX - 1, u32::MAX] {
            both.plain.state.current = current;
            is_none(&mut lent(&both, 100));
            assert_eq!(lent(&both, 100).number(Call::Open), 4);
        }
    }
    // an oldest version that is none, and no edition
    for (oldest, edition) in [(3, 1), (u32::MAX, 2), (0, 0), (0, 3), (2, u32::MAX)] {
        let mut both = two_releases();
        (both.plain.state.oldest, both.plain.state.edition) = (oldest, edition);
        is_none(&mut lent(&both, 100));
        assert_eq!(lent(&both, 100).number(Call::Open), 4);
    }
    // an open version that is none, and what is neither open nor not
    for (current, opened) in [(HIGHEST_VERSION, 1), (2, 2), (2, u32::MAX)] {
        let mut both = two_releases();
        (both.plain.state.current, both.plain.state.opened) = (current, opened);
        is_none(&mut lent(&both, 100));
        assert_eq!(lent(&both, 100).number(Call::Open), 4);
    }
}

/// An open looks at no item, and so at no room.
#[test]
fn versions_used_up() {
    let mut both = two_releases();
    both.plain.state.current = HIGHEST_VERSION;
    assert_eq!(lent(&both, 16).number(Call::Open), 9);
    assert_eq!(lent(&both, 0).number(Call::Open), 9);
    both.plain.state.current -= 1;
    let mut plain = lent(&both, 20);
    assert_eq!(plain.number(Call::Open), 0);
    assert_eq!(plain.number(Call::Open), 8);
    assert_eq!(plain.number(Call::Insert(1, 5)), 0);
    assert_eq!(plain.number(Call::Commit), 0);
    assert_eq!(plain.number(Call::Open), 9);
    let mut list = [0; 4];
    let answer = plain.apply(Call::Life(1, 4), &mut list);
    assert_eq!((answer.number, list), (0, [HIGHEST_VERSION, ALIVE, 5, 0]));
}

// ---- items that no history makes: they are not judged, and answers agree all the same

/// A small number, or any.
fn some(rng: &mut Rng, below: u32) -> u32 {
    match rng.below(8) {
        0 => rng.word(),
        1 => ALIVE,
        _ => rng.below(below),
    }
}

fn any_items(rng: &mut Rng) -> Plain {
    let count = rng.below(14);
    let numbers = (0..count).flat_map(|_| [some(rng, 5), some(rng, 7), some(rng, 9), rng.below(3)]);
    let items = numbers.collect();
    let state = State {
        current: rng.below(7),
        opened: rng.below(2),
        count,
        oldest: 0,
        edition: 2,
    };
    Plain { items, state }
}

fn found(plain: &mut Plain, key: u32, version: u32) -> Option<u32> {
    let answer = plain.apply(Call::Lookup(key, version), &mut []);
    assert_eq!(answer.number, 0);
    answer.found.then_some(answer.value)
}

/// The numbers of a call's list.
fn listed(plain: &mut Plain, call: Call, each: usize) -> Vec<u32> {
    let mut list = vec![0; 200];
    let answer = plain.apply(call.with_list(200), &mut list);
    assert_eq!(answer.number, 0);
    list.truncate(each * answer.count as usize);
    list
}

#[test]
fn items_of_any_numbers() {
    let mut rng = Rng::new(10);
    for _ in 0..rounds(300) {
        let mut plain = any_items(&mut rng);
        let State {
            current, opened, ..
        } = plain.state;
        let last = current + opened;
        for version in 0..=last {
            let range = listed(&mut plain, Call::Range(0, 4, version, 0), 2);
            let settings = (0..5).filter_map(|key| Some([key, found(&mut plain, key, version)?]));
            assert_eq!(range, settings.collect::<Vec<_>>().concat());
            let differences = listed(&mut plain, Call::Difference(version, last, 0), 4);
            for key in 0..5 {
                let named = differences.chunks_exact(4).any(|four| four[0] == key);
                let differs = found(&mut plain, key, version) != found(&mut plain, key, last);
                assert_eq!(named, differs, "{key}");
            }
        }
        for key in 0..5 {
            let life = listed(&mut plain, Call::Life(key, 0), 3);
            for version in 0..=current {
                let stretch = life
                    .chunks_exact(3)
                    .find(|s| s[0] <= version && version < s[1]);
                assert_eq!(stretch.map(|s| s[2]), found(&mut plain, key, version));
            }
        }
        if opened == 1 {
            let alive = found(&mut plain, 1, last).is_some();
            assert_eq!(plain.number(Call::Delete(1)) == 0, alive);
            assert_eq!(found(&mut plain, 1, last), None);
        }
    }
}

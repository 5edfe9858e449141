//! Two programs beside each other: equal ones agree, and a faulty one is
//! caught, whichever of number, result, store or list its fault shows in.

mod common;

use common::rounds;
use reference::beside::{compare, run};
use reference::calls;
use reference::engine::{apply, Answer, Call, Engine, Reference};
use reference::history::{self, History, KINDS};

/// This program with a fault in the call that `fault` picks.
struct Faulty {
    fault: fn(Call, &mut [u8], &mut [u32], &mut Answer),
}

impl Engine for Faulty {
    fn apply(&mut self, call: Call, store: &mut [u8], list: &mut [u32]) -> Answer {
        let mut answer = apply(call, store, list);
        (self.fault)(call, store, list, &mut answer);
        answer
    }

    fn convert(&mut self, source: &[u8], target: &mut [u8]) -> u32 {
        calls::convert(source, target)
    }
}

fn is_caught(fault: fn(Call, &mut [u8], &mut [u32], &mut Answer)) -> bool {
    (0..6).any(|seed| {
        let mut history = History::new(seed, KINDS[seed as usize % 4], 24);
        let store = vec![0; 24 * 256];
        run(
            &mut Reference,
            &mut Faulty { fault },
            &mut history,
            &store,
            400,
        )
        .is_err()
    })
}

#[test]
fn equal_programs_agree() {
    for seed in 0..rounds(8) {
        let mut history = History::new(seed, KINDS[seed as usize % 4], 40);
        let store = vec![0xEE; 40 * 256];
        let (tally, _) = run(&mut Reference, &mut Reference, &mut history, &store, 300).unwrap();
        assert_eq!(tally.values().sum::<u64>(), 300);
    }
}

#[test]
fn a_faulty_program_is_caught() {
    // One fixed answer to every lookup.
    assert!(is_caught(|call, _, _, answer| {
        if matches!(call, Call::Lookup(..)) {
            *answer = Answer::default();
        }
    }));
    // A range with an invented count.
    assert!(is_caught(
        |_, _, _, answer| answer.count += u64::from(answer.count > 3)
    ));
    // A number written behind a range's last one.
    assert!(is_caught(|call, _, list, answer| {
        if let (Call::Range(..), Some(behind)) = (call, list.get_mut(2 * answer.count as usize)) {
            *behind = 0;
        }
    }));
    // A refusal that changes a byte.
    assert!(is_caught(|call, store, _, answer| {
        if call == Call::Open && answer.number == 8 {
            store[2000] ^= 1;
        }
    }));
    // Two refusals exchanged.
    assert!(is_caught(|_, _, _, answer| {
        if answer.number == 6 {
            answer.number = 5;
        }
    }));
    // The last byte of page 5, after a commit.
    assert!(is_caught(|call, store, _, _| {
        if call == Call::Commit {
            store[6 * 256 - 1] ^= 1;
        }
    }));
    assert!(!is_caught(|_, _, _, _| {}));
}

#[test]
fn a_history_is_named_by_its_seed() {
    for (seed, kind) in (0..8).zip(KINDS.into_iter().cycle()) {
        let (one, store) = history::calls(seed, kind, 30, 200);
        assert_eq!(
            (one.clone(), store.clone()),
            history::calls(seed, kind, 30, 200)
        );
        let (other, _) = history::calls(seed + 100, kind, 30, 200);
        assert_ne!(one, other);
        // The calls alone lead another program to the same store.
        let (mut left, mut right) = (vec![0; 30 * 256], vec![0; 30 * 256]);
        for call in one {
            compare(&mut Reference, &mut Reference, call, &mut left, &mut right).unwrap();
        }
        assert_eq!(right, store);
    }
}

//! What the test files share.

#![allow(dead_code)]

pub mod calls;
pub mod met;
pub mod plainly;
pub mod stores;

use host::Proved;
use reference::beside::compare;
use reference::engine::{Answer, Call, Engine, Reference};

/// How often a test goes round: `usual`, or twenty times that if `RCST_LONG` is
/// set.
pub fn rounds(usual: u64) -> u64 {
    match std::env::var("RCST_LONG") {
        Ok(_) => usual * 20,
        Err(_) => usual,
    }
}

/// Whether a call with this number may have changed the store: one that is
/// done, and a return that ends in 12 or 13, which is the abandon.
pub fn may_write(call: Call, number: u32) -> bool {
    number == 0 || matches!((call, number), (Call::Return(_), 12 | 13))
}

/// One call on both programs, each on a copy of `store`: equal in number,
/// results, every byte of the store and every number of the list. Its answer,
/// and the store after it.
pub fn both(call: Call, store: &[u8]) -> (Answer, Vec<u8>) {
    let (mut left, mut right) = (store.to_vec(), store.to_vec());
    let answer = compare(&mut Reference, &mut Proved, call, &mut left, &mut right)
        .unwrap_or_else(|difference| panic!("{difference:?}"));
    (answer, left)
}

/// A conversion by both programs, each into a copy of `target`: equal in number
/// and in every byte of the target. The source is lent to be read alone.
pub fn both_convert(source: &[u8], target: &[u8]) -> (u32, Vec<u8>) {
    let (mut left, mut right) = (target.to_vec(), target.to_vec());
    let numbers = (
        Reference.convert(source, &mut left),
        Proved.convert(source, &mut right),
    );
    assert_eq!(numbers.0, numbers.1);
    let differing = left
        .iter()
        .zip(&right)
        .position(|(one, other)| one != other);
    assert_eq!(differing, None, "target of {} bytes", target.len());
    (numbers.0, left)
}

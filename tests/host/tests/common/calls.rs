//! The calls as `reference::calls` has them, each made by both programs and
//! compared. Cases that call these hold the library to the reference, call by
//! call and byte by byte.

use super::both_convert;
use host::Proved;
use reference::beside::compare;
use reference::engine::{Answer, Call, Reference};
use reference::state::State;

/// One call on both programs; `bytes` is the store after it.
fn call(call: Call, bytes: &mut [u8]) -> Answer {
    let mut right = bytes.to_vec();
    compare(&mut Reference, &mut Proved, call, bytes, &mut right)
        .unwrap_or_else(|difference| panic!("{difference:?}"))
}

pub fn fresh(bytes: &mut [u8]) -> u32 {
    call(Call::Fresh, bytes).number
}

pub fn fresh_second(bytes: &mut [u8]) -> u32 {
    call(Call::FreshSecond, bytes).number
}

pub fn convert(source: &[u8], target: &mut [u8]) -> u32 {
    let (number, after) = both_convert(source, target);
    target.copy_from_slice(&after);
    number
}

pub fn check(bytes: &[u8]) -> (u32, u32) {
    let answer = call(Call::Check, &mut bytes.to_vec());
    (answer.number, answer.rule)
}

pub fn state(bytes: &[u8]) -> (u32, State) {
    let answer = call(Call::State, &mut bytes.to_vec());
    (answer.number, answer.state)
}

pub fn open(bytes: &mut [u8]) -> u32 {
    call(Call::Open, bytes).number
}

pub fn insert(bytes: &mut [u8], key: u32, value: u32) -> u32 {
    call(Call::Insert(key, value), bytes).number
}

pub fn delete(bytes: &mut [u8], key: u32) -> u32 {
    call(Call::Delete(key), bytes).number
}

pub fn commit(bytes: &mut [u8]) -> u32 {
    call(Call::Commit, bytes).number
}

pub fn abandon(bytes: &mut [u8]) -> u32 {
    call(Call::Abandon, bytes).number
}

pub fn return_to(bytes: &mut [u8], version: u32) -> u32 {
    call(Call::Return(version), bytes).number
}

pub fn prune(bytes: &mut [u8], version: u32) -> u32 {
    call(Call::Prune(version), bytes).number
}

pub fn lookup(bytes: &[u8], key: u32, version: u32) -> (u32, bool, u32) {
    let answer = call(Call::Lookup(key, version), &mut bytes.to_vec());
    (answer.number, answer.found, answer.value)
}

pub fn visits(bytes: &[u8], key: u32, version: u32, list: &mut [u32]) -> (u32, u32) {
    let visits = Call::Visits(key, version, list.len());
    let answer = call(visits, &mut bytes.to_vec());
    reference::calls::visits(bytes, key, version, list);
    (answer.number, answer.count as u32)
}

pub fn difference(bytes: &[u8], old: u32, new: u32, list: &mut [u32]) -> (u32, u32) {
    let difference = Call::Difference(old, new, list.len());
    let answer = call(difference, &mut bytes.to_vec());
    reference::calls::difference(bytes, old, new, list);
    (answer.number, answer.count as u32)
}

pub fn life(bytes: &[u8], key: u32, list: &mut [u32]) -> (u32, u32) {
    let answer = call(Call::Life(key, list.len()), &mut bytes.to_vec());
    reference::calls::life(bytes, key, list);
    (answer.number, answer.count as u32)
}

/// The list is lent to the reference once more, to be read by the case.
pub fn range(bytes: &[u8], low: u32, high: u32, version: u32, list: &mut [u32]) -> (u32, u64) {
    let range = Call::Range(low, high, version, list.len());
    let answer = call(range, &mut bytes.to_vec());
    reference::calls::range(bytes, low, high, version, list);
    (answer.number, answer.count)
}

//! Two programs on the same history, compared after every call: number,
//! results, every byte of the store and every number of the list.

use std::collections::BTreeMap;

use crate::engine::{Answer, Call, Engine};
use crate::history::History;

/// How often each number was given.
pub type Tally = BTreeMap<u32, u64>;

/// The first call at which two programs differ.
#[derive(Debug)]
pub struct Difference {
    /// How many calls went before.
    pub at: usize,
    pub call: Call,
    pub answers: (Answer, Answer),
    /// The first byte of the store that differs, and its two values.
    pub store: Option<(usize, u8, u8)>,
    /// The first number of the list that differs, and its two values.
    pub list: Option<(usize, u32, u32)>,
}

/// Runs `count` calls of `history` on both programs, each on a copy of
/// `store`, and gives the store at the end.
pub fn run(
    one: &mut dyn Engine,
    other: &mut dyn Engine,
    history: &mut History,
    store: &[u8],
    count: usize,
) -> Result<(Tally, Vec<u8>), Box<Difference>> {
    let (mut left, mut right) = (store.to_vec(), store.to_vec());
    let mut tally = Tally::new();
    for at in 0..count {
        let call = history.next_call();
        let answer = compare(one, other, call, &mut left, &mut right)
            .map_err(|difference| Box::new(Difference { at, ..difference }))?;
        *tally.entry(answer.number).or_default() += 1;
        history.observe(call, &answer);
    }
    Ok((tally, left))
}

/// One call on both programs. The lists are lent full of numbers, so that one
/// written where nothing belongs is seen.
pub fn compare(
    one: &mut dyn Engine,
    other: &mut dyn Engine,
    call: Call,
    left: &mut [u8],
    right: &mut [u8],
) -> Result<Answer, Difference> {
    let full = |index: usize| 0xC0DE_0000 | index as u32 & 0xFFFF;
    let mut lists: [Vec<u32>; 2] = [0, 1].map(|_| (0..call.list_length()).map(full).collect());
    let answers = (
        one.apply(call, left, &mut lists[0]),
        other.apply(call, right, &mut lists[1]),
    );
    let store = first_difference(left, right);
    let list = first_difference(&lists[0], &lists[1]);
    if answers.0 == answers.1 && store.is_none() && list.is_none() {
        return Ok(answers.0);
    }
    Err(Difference {
        at: 0,
        call,
        answers,
        store,
        list,
    })
}

fn first_difference<T: Copy + PartialEq>(left: &[T], right: &[T]) -> Option<(usize, T, T)> {
    let at = left
        .iter()
        .zip(right)
        .position(|(one, other)| one != other)?;
    Some((at, left[at], right[at]))
}

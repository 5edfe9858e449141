//! The tree and the plain engine (2026-10), side by side from fresh stores on.

use std::fmt;

use rcst::limits::PLAIN_ITEM_NUMBERS;
use rcst::number::{DONE, NO_PAGE_FREE, NO_SLOT_FREE, WRONG_LENGTH};
use rcst::plain::{Engine, State};

use crate::fault::Fault;
use crate::fresh::fresh;
use crate::history::Call;
use crate::store::{self, Change};

/// What a call answers: equal answers are equal to the last number of a list.
#[derive(Debug, PartialEq, Eq)]
pub enum Answer {
    Done,
    Refused(u32),
    Value(u32),
    Absent,
    /// Things of so many numbers each.
    List(usize, Vec<u32>),
}

impl Answer {
    fn of(number: u32) -> Answer {
        match number {
            DONE => Answer::Done,
            refused => Answer::Refused(refused),
        }
    }

    fn looked((number, found, value): (u32, bool, u32)) -> Answer {
        match (number, found) {
            (DONE, true) => Answer::Value(value),
            (DONE, false) => Answer::Absent,
            (refused, _) => Answer::Refused(refused),
        }
    }

    fn listed(each: usize, ask: impl FnMut(&mut [u32]) -> (u32, usize)) -> Answer {
        match store::listed(each, ask) {
            Ok(list) => Answer::List(each, list),
            Err(refused) => Answer::Refused(refused),
        }
    }
}

impl fmt::Display for Answer {
    fn fmt(&self, out: &mut fmt::Formatter) -> fmt::Result {
        match self {
            Answer::Done => out.write_str("ok"),
            Answer::Refused(number) => write!(out, "refused {number}"),
            Answer::Value(value) => write!(out, "value {value}"),
            Answer::Absent => out.write_str("absent"),
            Answer::List(each, list) => {
                write!(out, "count {}", list.len() / each)?;
                for (place, thing) in list.chunks_exact(*each).enumerate() {
                    let numbers: Vec<String> = thing.iter().map(u32::to_string).collect();
                    let before = if place == 0 { ":" } else { "," };
                    write!(out, "{before} {}", numbers.join(" "))?;
                }
                Ok(())
            }
        }
    }
}

/// What the plain engine does where the tree has answered.
#[derive(Debug, PartialEq, Eq)]
pub enum Beside {
    Answers(Answer),
    /// The call speaks of pages alone, and is not made there.
    LeftOut,
    /// In a return's place.
    Abandons(Answer),
}

impl Beside {
    /// Whether it is what 2026-10 has it be.
    pub fn is_right(&self, tree: &Answer) -> bool {
        match self {
            Beside::Answers(answer) => answer == tree,
            Beside::LeftOut => true,
            Beside::Abandons(answer) => *answer == Answer::Done,
        }
    }
}

impl fmt::Display for Beside {
    fn fmt(&self, out: &mut fmt::Formatter) -> fmt::Result {
        match self {
            Beside::Answers(answer) => answer.fmt(out),
            Beside::LeftOut => out.write_str("left out"),
            Beside::Abandons(answer) => write!(out, "abandon: {answer}"),
        }
    }
}

/// A store, and the list that the plain engine is lent: it has room for one item for
/// each insert that the store accepted, a return's own included, and no more.
pub struct Both {
    edition: u32,
    /// Of every store, whatever the history says.
    pages: Option<usize>,
    tree: Vec<u8>,
    items: Vec<u32>,
    state: State,
}

impl Both {
    /// With no store yet: each call but a store's gives 1. With `pages` there is one.
    pub fn new(edition: u32, pages: Option<usize>) -> Result<Both, Fault> {
        Ok(Both {
            edition,
            pages,
            tree: pages.map_or(Ok(Vec::new()), |pages| fresh(pages, edition))?,
            items: Vec::new(),
            state: State::fresh(edition),
        })
    }

    /// One call on both.
    pub fn call(&mut self, call: Call) -> (Answer, Beside) {
        if let Call::Store(pages) = call {
            return self.store(pages as usize);
        }
        let inserts = inserts_by(&self.tree, call);
        let tree = by_tree(&mut self.tree, call);
        let beside = match (call, &tree) {
            (Call::Return(_), Answer::Refused(NO_PAGE_FREE | NO_SLOT_FREE)) => {
                Beside::Abandons(self.plainly(Call::Abandon))
            }
            (_, Answer::Refused(WRONG_LENGTH | NO_PAGE_FREE | NO_SLOT_FREE)) => Beside::LeftOut,
            _ => {
                let more = if tree == Answer::Done { inserts } else { 0 };
                let room = self.items.len() + PLAIN_ITEM_NUMBERS * more;
                self.items.resize(room, 0);
                Beside::Answers(self.plainly(call))
            }
        };
        (tree, beside)
    }

    /// A store that is refused leaves the one before.
    fn store(&mut self, pages: usize) -> (Answer, Beside) {
        let Ok(tree) = fresh(self.pages.unwrap_or(pages), self.edition) else {
            return (Answer::Refused(WRONG_LENGTH), Beside::LeftOut);
        };
        self.tree = tree;
        self.items.clear();
        self.state = State::fresh(self.edition);
        (Answer::Done, Beside::Answers(Answer::Done))
    }

    fn plainly(&mut self, call: Call) -> Answer {
        let mut engine = Engine::resumed(&mut self.items, self.state);
        let answer = by_plain(&mut engine, call);
        self.state = engine.state();
        answer
    }
}

/// How many inserts a call makes where it is done: of a return what is missing, and
/// what has another value.
fn inserts_by(tree: &[u8], call: Call) -> usize {
    let version = match call {
        Call::Insert(..) => return 1,
        Call::Return(version) => version,
        _ => return 0,
    };
    let last = rcst::state(tree).1.last();
    let differences = store::difference(tree, last, version).unwrap_or_default();
    let comes = |change: &Change| !matches!(change, Change::Removed(_));
    differences
        .iter()
        .filter(|(_, change)| comes(change))
        .count()
}

fn by_tree(store: &mut [u8], call: Call) -> Answer {
    match call {
        Call::Store(_) => Answer::Done,
        Call::Open => Answer::of(rcst::open(store)),
        Call::Insert(key, value) => Answer::of(rcst::insert(store, key, value)),
        Call::Delete(key) => Answer::of(rcst::delete(store, key)),
        Call::Commit => Answer::of(rcst::commit(store)),
        Call::Abandon => Answer::of(rcst::abandon(store)),
        Call::Return(version) => Answer::of(rcst::return_to(store, version)),
        Call::Prune(version) => Answer::of(rcst::prune(store, version)),
        Call::Get(key, version) => Answer::looked(rcst::lookup(store, key, version)),
        Call::Range(low, high, version) => {
            Answer::listed(2, |list| rcst::range(store, low, high, version, list))
        }
        Call::Difference(old, new) => {
            Answer::listed(4, |list| rcst::difference(store, old, new, list))
        }
        Call::Life(key) => Answer::listed(3, |list| rcst::life(store, key, list)),
    }
}

fn by_plain(engine: &mut Engine, call: Call) -> Answer {
    match call {
        Call::Store(_) => Answer::Done,
        Call::Open => Answer::of(engine.open()),
        Call::Insert(key, value) => Answer::of(engine.insert(key, value)),
        Call::Delete(key) => Answer::of(engine.delete(key)),
        Call::Commit => Answer::of(engine.commit()),
        Call::Abandon => Answer::of(engine.abandon()),
        Call::Return(version) => Answer::of(engine.return_to(version)),
        Call::Prune(version) => Answer::of(engine.prune(version)),
        Call::Get(key, version) => Answer::looked(engine.lookup(key, version)),
        Call::Range(low, high, version) => {
            Answer::listed(2, |list| engine.range(low, high, version, list))
        }
        Call::Difference(old, new) => Answer::listed(4, |list| engine.difference(old, new, list)),
        Call::Life(key) => Answer::listed(3, |list| engine.life(key, list)),
    }
}

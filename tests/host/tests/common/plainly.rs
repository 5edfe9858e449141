//! The tree and the plain engine (2026-10) lent side by side, each call made on
//! both and compared.

use std::collections::BTreeMap;

use host::limits::PLAIN_ITEM_NUMBERS;
use host::plain::{self, State};
use host::Proved;
use reference::engine::{Answer, Call, Engine};
use reference::number::DONE;

/// What lent lists are filled with.
const LENT: u32 = 0xAAAA_AAAA;

/// The plain engine with the room that it is lent.
#[derive(Clone, Debug, PartialEq, Eq)]
pub struct Plain {
    pub items: Vec<u32>,
    pub state: State,
}

impl Plain {
    /// No items, beside a fresh store of the edition.
    pub fn fresh(edition: u32) -> Plain {
        Plain {
            items: Vec::new(),
            state: State::fresh(edition),
        }
    }

    /// A call on the plain engine; one that is refused, or reads, changes nothing.
    pub fn apply(&mut self, call: Call, list: &mut [u32]) -> Answer {
        let before = self.clone();
        let mut engine = plain::Engine::resumed(&mut self.items, self.state);
        let answer = applied(&mut engine, call, list);
        self.state = engine.state();
        if call.takes_list() || matches!(call, Call::Lookup(..)) || answer.number != DONE {
            assert_eq!(*self, before, "{call:?}");
        }
        answer
    }

    pub fn number(&mut self, call: Call) -> u32 {
        self.apply(call, &mut vec![LENT; call.list_length()]).number
    }

    /// The items, without what stands behind them.
    pub fn held(&self) -> &[u32] {
        &self.items[..PLAIN_ITEM_NUMBERS * self.state.count as usize]
    }
}

fn applied(engine: &mut plain::Engine, call: Call, list: &mut [u32]) -> Answer {
    match call {
        Call::Open => Answer::of(engine.open()),
        Call::Commit => Answer::of(engine.commit()),
        Call::Abandon => Answer::of(engine.abandon()),
        Call::Insert(key, value) => Answer::of(engine.insert(key, value)),
        Call::Delete(key) => Answer::of(engine.delete(key)),
        Call::Return(version) => Answer::of(engine.return_to(version)),
        Call::Prune(version) => Answer::of(engine.prune(version)),
        Call::Lookup(key, version) => {
            let (number, found, value) = engine.lookup(key, version);
            Answer {
                found,
                value,
                ..Answer::of(number)
            }
        }
        Call::Range(low, high, version, _) => counted(engine.range(low, high, version, list)),
        Call::Difference(old, new, _) => counted(engine.difference(old, new, list)),
        Call::Life(key, _) => counted(engine.life(key, list)),
        _ => panic!("{call:?}: not a call of the plain engine"),
    }
}

fn counted((number, count): (u32, usize)) -> Answer {
    Answer::counted((number, count as u64))
}

/// A store, and the plain engine with room for one item for each insert that the
/// store accepted, a return's own included, and no more: the premise.
pub struct Both {
    pub tree: Vec<u8>,
    pub plain: Plain,
    /// Which numbers were given, and how often each; returns' apart.
    pub given: BTreeMap<u32, u64>,
    pub returns: BTreeMap<u32, u64>,
    /// What is wrong with the plain engine.
    pub fault: Fault,
}

/// A call, what was lent, and what it left: to be made wrong.
pub type Fault = fn(Call, &Plain, &mut Plain);

impl Both {
    /// Lent bytes, with no store in them yet.
    pub fn lent(bytes: Vec<u8>) -> Both {
        Both {
            tree: bytes,
            plain: Plain::fresh(1),
            given: BTreeMap::new(),
            returns: BTreeMap::new(),
            fault: |_, _, _| {},
        }
    }

    /// A call on both: equal in number, results and every number of the list. One to
    /// which the tree gives 12 or 13 is left out of the plain sequence, and a return
    /// that ends so is an abandon there.
    pub fn call(&mut self, call: Call) -> Answer {
        let inserts = self.inserts_by(call);
        let mut list = vec![LENT; call.list_length()];
        let answer = Proved.apply(call, &mut self.tree, &mut list);
        *self.given.entry(answer.number).or_default() += 1;
        if let Call::Return(_) = call {
            *self.returns.entry(answer.number).or_default() += 1;
        }
        match (call, answer.number) {
            (Call::Fresh, _) => self.plain = Plain::fresh(1),
            (Call::FreshSecond, _) => self.plain = Plain::fresh(2),
            (Call::Check | Call::State | Call::Visits(..), _) => {}
            (Call::Return(_), 12 | 13) => assert_eq!(self.plain.number(Call::Abandon), DONE),
            (_, 12 | 13) => {}
            (_, number) => {
                let more = if number == DONE { inserts } else { 0 };
                let room = self.plain.items.len() + PLAIN_ITEM_NUMBERS * more;
                self.plain.items.resize(room, LENT);
                let mut beside = vec![LENT; call.list_length()];
                let lent = self.plain.clone();
                let plain = self.plain.apply(call, &mut beside);
                if self.plain != lent {
                    (self.fault)(call, &lent, &mut self.plain);
                }
                assert_eq!(plain, answer, "{call:?}");
                assert!(beside == list, "{call:?}: {beside:?}, and not {list:?}");
            }
        }
        answer
    }

    pub fn number(&mut self, call: Call) -> u32 {
        self.call(call).number
    }

    /// Calls of which each is done.
    pub fn done(&mut self, calls: &[Call]) {
        for call in calls {
            assert_eq!(self.number(*call), DONE, "{call:?}");
        }
    }

    /// How many inserts a call makes where it is done.
    fn inserts_by(&self, call: Call) -> usize {
        let version = match call {
            Call::Insert(..) => return 1,
            Call::Return(version) => version,
            _ => return 0,
        };
        let (_, state) = host::state(&self.tree);
        let (_, most) = host::difference(&self.tree, state.last(), version, &mut []);
        let mut list = vec![0; 4 * most];
        host::difference(&self.tree, state.last(), version, &mut list);
        // kind 1 is removed: what is added comes, and what is changed comes anew
        list.chunks_exact(4).filter(|four| four[1] != 1).count()
    }
}

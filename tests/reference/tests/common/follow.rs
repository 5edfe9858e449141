//! A history on this program, beside one ordered map for each version.

use super::literal::{pruned, sizes};
use super::roomier;
use crate::calls;
use reference::beside::Tally;
use reference::edition::Edition;
use reference::engine::{apply, Answer, Call};
use reference::history::History;
use reference::layout::HIGHEST_KEY;
use reference::model::Model;
use reference::{number, store, unjudged, walk};

/// What a followed history leaves: its store, and how often it met what it is
/// meant to meet.
#[derive(Default)]
pub struct Followed {
    pub store: Vec<u8>,
    pub tally: Tally,
    pub highest_level: u32,
    pub abandons: u64,
    pub roots_that_went: u64,
    /// Returns that were done, and that ended in 12 or 13.
    pub returns: u64,
    pub stopped: u64,
    pub prunes: u64,
}

struct Follower {
    followed: Followed,
    /// The store before the update that is open, if it was opened here.
    before_open: Option<Vec<u8>>,
    /// Accepted inserts less deletes, at current and in the open update.
    settings: (i64, i64),
}

/// Follows `count` calls of `history` from `store` on and panics where an
/// answer or a byte is not as document 01 says.
pub fn follow(history: &mut History, store: Vec<u8>, count: usize) -> Followed {
    let mut follower = Follower {
        followed: Followed {
            store,
            ..Followed::default()
        },
        before_open: None,
        settings: (settings_of(history.model()), 0),
    };
    if history.model().is_open() {
        let at_current = history.model().at(history.model().current).len() as i64;
        follower.settings = (at_current, settings_of(history.model()) - at_current);
    }
    for _ in 0..count {
        let call = history.next_call();
        let answer = follower.one_call(call, history.model());
        history.observe(call, &answer);
        let (committed, open) = follower.settings;
        assert_eq!(settings_of(history.model()), committed + open);
    }
    every_version_answers(&follower.followed.store, history.model());
    follower.followed
}

fn is_lack(number: u32) -> bool {
    [number::NO_FREE_PAGE, number::NO_FREE_SLOT].contains(&number)
}

fn settings_of(model: &Model) -> i64 {
    model.at(model.last()).len() as i64
}

impl Follower {
    fn one_call(&mut self, call: Call, model: &Model) -> Answer {
        let before = self.followed.store.clone();
        let mut list = vec![0xC0DE; call.list_length()];
        let answer = apply(call, &mut self.followed.store, &mut list);
        *self.followed.tally.entry(answer.number).or_default() += 1;
        self.compare(call, answer, &before, model);
        compare_list(call, answer, &list, &before, model);
        if answer.number == number::DONE {
            self.accepted(call, before, model);
        } else if let (Call::Return(_), true) = (call, is_lack(answer.number)) {
            // Such a return "is itself the abandon".
            let mut abandoned = before.clone();
            assert_eq!(calls::abandon(&mut abandoned), 0);
            assert_eq!(abandoned, self.followed.store, "{call:?} stopped");
            self.followed.stopped += 1;
            self.accepted(Call::Abandon, before, model);
        } else {
            assert_eq!(before, self.followed.store, "{call:?} refused");
        }
        answer
    }

    fn compare(&self, call: Call, answer: Answer, before: &[u8], model: &Model) {
        let mut expected = model.answer(call);
        if let (Call::Visits(key, version, length), number::DONE) = (call, expected.number) {
            let wanted = pages_on_the_way(before, key, version).len();
            let short = length < wanted;
            expected.number = if short { number::LIST_TOO_SHORT } else { 0 };
            expected.count = wanted as u64;
        }
        if call == Call::State {
            // What the model knows nothing of, read as bits.
            let (pages, roots, free) = sizes(before);
            expected.state.pages = pages;
            expected.state.roots = roots;
            expected.state.free = free;
        }
        let lacking = is_lack(answer.number);
        let update = matches!(call, Call::Insert(..) | Call::Delete(..) | Call::Return(_));
        if update && expected.number == number::DONE {
            lacks_exactly_when_needed(call, answer.number, before, &self.followed.store);
        }
        if !(update && lacking) {
            assert_eq!(answer, expected, "{call:?}");
        } else {
            assert_eq!(expected, Answer::default(), "{call:?} lacks nothing");
            assert_eq!(answer, Answer::of(answer.number));
        }
    }

    fn accepted(&mut self, call: Call, before: Vec<u8>, model: &Model) {
        match call {
            Call::Open => self.before_open = Some(before),
            Call::Insert(..) => self.settings.1 += 1,
            Call::Delete(_) => {
                self.settings.1 -= 1;
                self.followed.roots_that_went += u64::from(self.root_fell(&before));
            }
            Call::Commit => self.settings = (self.settings.0 + self.settings.1, 0),
            Call::Abandon => {
                self.settings.1 = 0;
                self.followed.abandons += 1;
                if let Some(opened) = self.before_open.take() {
                    assert_eq!(opened, self.followed.store, "abandon");
                }
            }
            Call::Return(version) => {
                self.settings.1 = model.at(version).len() as i64 - self.settings.0;
                self.followed.returns += 1;
            }
            Call::Fresh | Call::FreshSecond => self.settings = (0, 0),
            Call::Prune(version) => {
                assert_eq!(pruned(&before, version), self.followed.store, "{call:?}");
                self.followed.prunes += 1;
            }
            Call::Check | Call::State | Call::Lookup(..) | Call::Range(..) => return,
            Call::Visits(..) | Call::Difference(..) | Call::Life(..) => return,
        }
        self.every_reached_page_is_filled();
    }

    fn root_level(&self, bytes: &[u8]) -> u32 {
        let last = store::header(bytes).last();
        store::level(bytes, walk::root(bytes, last))
    }

    fn root_fell(&self, before: &[u8]) -> bool {
        self.root_level(&self.followed.store) < self.root_level(before)
    }

    /// "Every page that a version reaches, its root aside, holds at least four
    /// entries alive at that version" (in edition 2 eight), at last.
    fn every_reached_page_is_filled(&mut self) {
        let bytes = &self.followed.store;
        let last = store::header(bytes).last();
        let root = walk::root(bytes, last);
        let level = store::level(bytes, root);
        self.followed.highest_level = self.followed.highest_level.max(level);
        let mut met = vec![root];
        while let Some(number) = met.pop() {
            let page = store::page(bytes, number);
            let live = page.live(last).count();
            let fewest = Edition::of(bytes).fewest_live;
            assert!(number == root || live >= fewest, "page {number} has {live}");
            if page.is_index() {
                met.extend(page.live(last).map(|router| router.value));
            }
        }
    }
}

/// A call that is done writes what it lists and nothing behind it; a refused
/// one writes nothing.
fn compare_list(call: Call, answer: Answer, list: &[u32], bytes: &[u8], model: &Model) {
    let written = match (call, answer.number) {
        (Call::Range(low, high, version, _), number::DONE) => model.listed(low, high, version),
        (Call::Life(key, _), number::DONE) => model.lived(key),
        (Call::Difference(old, new, _), number::DONE) => model.differing(old, new),
        (Call::Visits(key, version, _), number::DONE) => pages_on_the_way(bytes, key, version),
        _ => Vec::new(),
    };
    let mut expected = vec![0xC0DE; list.len()];
    expected[..written.len()].copy_from_slice(&written);
    assert_eq!(list, expected, "{call:?}");
}

/// The way down for a key, by the router with the highest low key at or below
/// it.
fn pages_on_the_way(bytes: &[u8], key: u32, version: u32) -> Vec<u32> {
    let mut way = vec![walk::root(bytes, version)];
    while store::level(bytes, way[way.len() - 1]) > 1 {
        let page = store::page(bytes, way[way.len() - 1]);
        let below = page.live(version).filter(|router| router.key <= key);
        let router = below.max_by_key(|router| router.key);
        way.push(router.expect("a sound store").value);
    }
    way
}

/// "An update is refused for lack of pages exactly when those rules need a
/// page and none is free": with more room the same update uses a page that
/// this store does not have, just if it is refused here.
fn lacks_exactly_when_needed(call: Call, given: u32, before: &[u8], after: &[u8]) {
    let own = store::page_count(before);
    let more = 16.min(4096 - own as usize);
    if more < 16 || given == number::NO_FREE_SLOT {
        return;
    }
    let mut roomy = roomier(before, more);
    let number = match call {
        Call::Insert(key, value) => unjudged::insert(&mut roomy, key, value),
        Call::Delete(key) => unjudged::delete(&mut roomy, key),
        _ => return,
    };
    let beyond = (own..own + more as u32).any(|n| store::level(&roomy, n) != 0);
    if given == number::NO_FREE_PAGE {
        // With 12 and 13 together 12 is given here, 13 there.
        assert!(beyond || number == number::NO_FREE_SLOT, "{call:?}");
    } else {
        assert!(!beyond, "{call:?} found a page");
        let own_bytes = after.len();
        let header = Edition::of(before).page_bytes;
        assert_eq!(roomy[header..own_bytes], after[header..], "{call:?}");
    }
}

/// Every version answers as the model says, committed ones included: what was
/// done later has changed nothing.
pub fn every_version_answers(bytes: &[u8], model: &Model) {
    assert_eq!(calls::check(bytes), (0, 0));
    let last = model.last();
    let step = ((last - model.oldest) / 400).max(1) as usize;
    let versions = (model.oldest..=last).step_by(step);
    for version in versions.chain([last]) {
        let mut list = vec![0; 2 * model.at(version).len()];
        let (number, count) = unjudged::range(bytes, 0, HIGHEST_KEY, version, &mut list);
        assert_eq!((number, count as usize), (0, list.len() / 2));
        assert_eq!(list, model.listed(0, HIGHEST_KEY, version));
    }
}

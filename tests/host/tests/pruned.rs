//! Thousands of histories with prunes by the library alone, beside one ordered map
//! for each version: prunes, updates in the pages that they freed, and abandons of
//! these.

#[path = "common/mod.rs"]
mod beside;

use std::collections::BTreeSet;

use beside::{may_write, rounds};
use host::Proved;
use reference::edition::SECOND;
use reference::engine::{Answer, Call, Engine};
use reference::history::{History, Kind};
use reference::layout::HIGHEST_KEY;
use reference::model::Model;
use reference::number::{DONE, LIST_TOO_SHORT, NO_FREE_PAGE, NO_FREE_SLOT};
use reference::store;

const LENT: u32 = 0xC0DE;

/// What was met, and the pages that prunes freed and nothing uses.
#[derive(Debug, Default)]
struct Met {
    prunes: u64,
    freed: u64,
    used_again: u64,
    abandoned_in_freed: u64,
    lacking: u64,
    idle: BTreeSet<u32>,
    /// The bytes before the open, and whether a freed page was used since.
    before: Option<(Vec<u8>, bool)>,
}

impl Met {
    fn call(&mut self, call: Call, bytes: &mut [u8], model: &Model) -> Answer {
        let before = bytes.to_vec();
        let mut list = vec![LENT; call.list_length()];
        let answer = Proved.apply(call, bytes, &mut list);
        as_expected(call, answer, &list, model);
        assert!(
            may_write(call, answer.number) || bytes == before,
            "{call:?}"
        );
        let stops = matches!(
            (call, answer.number),
            (Call::Return(_), NO_FREE_PAGE | NO_FREE_SLOT)
        );
        self.lacking += u64::from(answer.number == NO_FREE_PAGE);
        match call {
            _ if stops => self.ends(bytes),
            _ if answer.number != DONE => {}
            Call::FreshSecond => {
                *self = Met {
                    idle: BTreeSet::new(),
                    before: None,
                    ..std::mem::take(self)
                }
            }
            Call::Open => self.before = Some((before, false)),
            Call::Commit => self.before = None,
            Call::Abandon => self.ends(bytes),
            Call::Prune(_) => self.pruned(&before, bytes),
            Call::Insert(..) | Call::Delete(_) | Call::Return(_) => self.uses(bytes),
            _ => {}
        }
        answer
    }

    fn pruned(&mut self, before: &[u8], bytes: &[u8]) {
        let freed =
            |number: &u32| store::level(before, *number) != 0 && store::level(bytes, *number) == 0;
        let freed: Vec<u32> = store::page_numbers(bytes).filter(freed).collect();
        self.prunes += 1;
        self.freed += freed.len() as u64;
        self.idle.extend(freed);
    }

    fn uses(&mut self, bytes: &[u8]) {
        let used = |number: &&u32| store::level(bytes, **number) != 0;
        let used: Vec<u32> = self.idle.iter().filter(used).copied().collect();
        self.used_again += used.len() as u64;
        if let (Some((_, in_freed)), false) = (&mut self.before, used.is_empty()) {
            *in_freed = true;
        }
        self.idle.retain(|number| !used.contains(number));
    }

    /// An update abandoned: every byte is what it was before the open.
    fn ends(&mut self, bytes: &[u8]) {
        if let Some((before, in_freed)) = self.before.take() {
            assert!(before == bytes, "abandoned");
            self.abandoned_in_freed += u64::from(in_freed);
        }
    }
}

/// The answer and the list are the plain map's; an update may lack a page or slot.
fn as_expected(call: Call, answer: Answer, list: &[u32], model: &Model) {
    let expected = model.answer(call);
    let update = matches!(call, Call::Insert(..) | Call::Delete(_) | Call::Return(_));
    match (call, answer.number) {
        (Call::Visits(..), DONE | LIST_TOO_SHORT) => return,
        (_, NO_FREE_PAGE | NO_FREE_SLOT) if update => assert_eq!(expected.number, DONE, "{call:?}"),
        (Call::State, _) => {
            let known = |answer: Answer| {
                let told = answer.state;
                (
                    answer.number,
                    told.current,
                    told.open,
                    told.edition,
                    told.oldest,
                )
            };
            assert_eq!(known(answer), known(expected));
        }
        _ => assert_eq!(answer, expected, "{call:?}"),
    }
    let written = match (call, answer.number) {
        (Call::Range(low, high, version, _), DONE) => model.listed(low, high, version),
        (Call::Life(key, _), DONE) => model.lived(key),
        (Call::Difference(old, new, _), DONE) => model.differing(old, new),
        _ => Vec::new(),
    };
    assert_eq!(list[..written.len()], written, "{call:?}");
    assert!(
        list[written.len()..].iter().all(|number| *number == LENT),
        "{call:?}"
    );
}

/// Every version from the oldest on, and the one before it.
fn every_version_answers(bytes: &[u8], model: &Model) {
    for version in model.oldest..=model.last() {
        let wanted = model.listed(0, HIGHEST_KEY, version);
        let mut list = vec![0; wanted.len()];
        let counted = host::range(bytes, 0, HIGHEST_KEY, version, &mut list);
        assert_eq!(counted, (0, wanted.len() / 2));
        assert_eq!(list, wanted);
    }
    if model.oldest > 0 {
        assert_eq!(host::lookup(bytes, 0, model.oldest - 1).0, 6);
    }
}

#[test]
fn thousands_of_histories() {
    let mut met = Met::default();
    let histories = rounds(2000);
    for seed in 0..histories {
        let pages = 8 + (seed as usize * 7) % 20;
        // The seeds of histories that prune.
        let named = seed / 8 * 16 + 8 + seed % 8;
        let mut history = History::of(&SECOND, named, Kind::HotPage, pages);
        let mut bytes = vec![0xEE; 512 * pages];
        for _ in 0..300 {
            let call = history.next_call();
            let answer = met.call(call, &mut bytes, history.model());
            history.observe(call, &answer);
        }
        every_version_answers(&bytes, history.model());
        met.idle.clear();
        met.before = None;
    }
    println!("{histories} histories: {met:?}");
    assert!(met.prunes > histories && met.freed > 200, "{met:?}");
    assert!(met.used_again > 80, "{met:?}");
    assert!(met.abandoned_in_freed > 5, "{met:?}");
    assert!(met.lacking > 0, "{met:?}");
}

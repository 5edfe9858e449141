//! Pruned stores of many shapes: what a prune leaves, what is sound from then on,
//! and what damage around the oldest version breaks.

mod common;

use std::collections::BTreeMap;
use std::sync::OnceLock;

use common::follow::follow;
use common::literal::{self, verdict};
use common::*;
use reference::damage::kinds;
use reference::damage::tamper::{flip_bit, set_some_field};
use reference::edition::{EDITIONS, FIRST, SECOND};
use reference::engine::{apply, Call};
use reference::history::{History, KINDS};
use reference::image::Image;
use reference::layout::{Page, HIGHEST_KEY};
use reference::model::Model;
use reference::rng::Rng;
use reference::samples::{pruned_store, second_store, sound_store, sound_store_of};
use reference::{calls, pruned, store, walk};

const STORES: u64 = 300;

fn pruned_stores() -> &'static [Vec<u8>] {
    static STORES_MADE: OnceLock<Vec<Vec<u8>>> = OnceLock::new();
    STORES_MADE.get_or_init(|| (0..STORES).map(pruned_store).collect())
}

/// Pruned stores and others of edition 2, with no update open.
fn some_closed_store(rng: &mut Rng) -> Vec<u8> {
    let mut bytes = match rng.once_in(3) {
        true => second_store(rng.below(1000).into()),
        false => rng.pick(pruned_stores()).unwrap().clone(),
    };
    if store::header(&bytes).open {
        abandon(&mut bytes);
    }
    bytes
}

fn some_committed(bytes: &[u8], rng: &mut Rng) -> u32 {
    let header = store::header(bytes);
    rng.between(header.oldest, header.current)
}

/// Every setting of a version, and for some keys the pages on the way to them.
fn reads(bytes: &[u8], version: u32) -> (Vec<(u32, u32)>, Vec<Vec<u32>>) {
    let settings = walk::range(bytes, 0, HIGHEST_KEY, version);
    let keys = settings.iter().step_by(7).map(|(key, _)| *key);
    let keys = keys.chain([0, HIGHEST_KEY]);
    let ways = keys.map(|key| {
        let mut way = vec![0; 7];
        let (number, count) = calls::visits(bytes, key, version, &mut way);
        assert_eq!(number, 0);
        way.truncate(count as usize);
        way
    });
    let ways = ways.collect();
    (settings, ways)
}

#[test]
fn what_the_stores_are() {
    let mut met = BTreeMap::<&str, u64>::new();
    for bytes in pruned_stores() {
        assert_sound(bytes);
        assert_eq!(verdict(bytes), (0, 0));
        let header = store::header(bytes);
        let image = Image::read(bytes);
        let mut count = |name, here: bool| *met.entry(name).or_default() += u64::from(here);
        count("open", header.open);
        count("closed", !header.open);
        count("oldest is current", header.oldest == header.current);
        count("one slot", header.roots == 1);
        count("first slot below", slots(bytes)[0].0 < header.oldest);
        count("tall", image.used().any(|(_, page)| page.level > 2));
        let mut spans = image.used().map(|(_, page)| page.span);
        count("an ended page", spans.any(|span| span.end <= header.oldest));
        for (_, page) in image.used().filter(|(_, page)| page.is_index()) {
            let routers = page.entries.iter();
            for router in routers.filter(|router| router.span.end <= header.oldest) {
                let child = image.page(router.value);
                count("an ended router", true);
                count("to a free page", child.is_free());
                let level = !child.is_free() && child.level + 1 != page.level;
                count("to a page of another level", level);
                count("to a page used again", child.span.start >= header.oldest);
                count("outside its page", !router.span.lies_in(page.span));
            }
        }
    }
    println!("{met:?} of {STORES}");
    assert!(met.values().all(|times| *times > 10), "{met:?}");
}

/// What a prune leaves, byte for byte; at once as in steps; a second one to the
/// same version changes nothing; every version from it on reads as before, by
/// the same pages, and those below give 6.
#[test]
fn what_a_prune_leaves() {
    for seed in 0..rounds(400) {
        let mut rng = Rng::new(seed);
        let before = some_closed_store(&mut rng);
        let (low, high) = {
            let (one, two) = (
                some_committed(&before, &mut rng),
                some_committed(&before, &mut rng),
            );
            (one.min(two), one.max(two))
        };
        let (mut steps, mut once) = (before.clone(), before.clone());
        for version in [low, high] {
            let expected = literal::pruned(&steps, version);
            assert_eq!(calls::prune(&mut steps, version), 0);
            assert_eq!(steps, expected, "seed {seed}");
            assert_sound(&steps);
            assert_eq!(calls::prune(&mut steps, version), 0);
            assert_eq!(steps, expected, "seed {seed}, again");
        }
        assert_eq!(calls::prune(&mut once, high), 0);
        assert_eq!(once, steps, "seed {seed}");
        assert_eq!(verdict(&once), (0, 0));
        let header = store::header(&once);
        let step = ((header.current - high) / 12).max(1) as usize;
        for version in (high..=header.current).step_by(step) {
            assert_eq!(
                reads(&once, version),
                reads(&before, version),
                "seed {seed}"
            );
        }
        for below in (0..high).rev().take(3).chain([0]).filter(|v| *v < high) {
            all_give_6(&mut once, below);
        }
    }
}

/// What reads or takes a version below the oldest; nothing is changed.
fn all_give_6(bytes: &mut [u8], version: u32) {
    let before = bytes.to_vec();
    let oldest = store::header(bytes).oldest;
    for call in [
        Call::Lookup(7, version),
        Call::Range(0, HIGHEST_KEY, version, 6),
        Call::Visits(7, version, 6),
        Call::Difference(version, oldest, 6),
        Call::Difference(oldest, version, 6),
        Call::Difference(version, version, 6),
        Call::Return(version),
        Call::Prune(version),
    ] {
        let mut list = vec![3; call.list_length()];
        let answer = apply(call, bytes, &mut list);
        assert_eq!(answer, reference::engine::Answer::of(6), "{call:?}");
        assert!(list.iter().all(|number| *number == 3));
    }
    assert_eq!(bytes, before);
}

/// Reading 01.4: stretches begin at the oldest version, and are the old ones from
/// there on.
#[test]
fn lives_from_the_oldest_on() {
    let lived = |bytes: &[u8], key: u32| {
        let mut list = vec![0; 300];
        let (number, count) = calls::life(bytes, key, &mut list);
        assert_eq!(number, 0);
        let stretches = list.chunks(3).take(count as usize);
        let stretches = stretches.map(|s| (s[0], s[1], s[2]));
        stretches.collect::<Vec<(u32, u32, u32)>>()
    };
    let mut cut = 0;
    for seed in 0..rounds(200) {
        let mut rng = Rng::new(seed);
        let before = some_closed_store(&mut rng);
        let version = some_committed(&before, &mut rng);
        let mut bytes = before.clone();
        assert_eq!(calls::prune(&mut bytes, version), 0);
        let keys = walk::range(&before, 0, HIGHEST_KEY, some_committed(&before, &mut rng));
        for (key, _) in keys.iter().step_by(5) {
            let old = lived(&before, *key);
            let expected = old.iter().filter(|(_, end, _)| *end > version);
            let expected = expected.map(|(start, end, value)| (*start.max(&version), *end, *value));
            let expected: Vec<(u32, u32, u32)> = expected.collect();
            assert_eq!(lived(&bytes, *key), expected, "seed {seed}, key {key}");
            cut += u64::from(expected != old);
        }
    }
    println!("{cut} lives were cut");
    assert!(cut > 300);
}

fn free_pages_of(bytes: &[u8]) -> Vec<u32> {
    let numbers = store::page_numbers(bytes);
    numbers.filter(|n| store::level(bytes, *n) == 0).collect()
}

/// Prunes to `version`; the pages that are free by that.
fn freed_by_prune(bytes: &mut [u8], version: u32) -> Vec<u32> {
    let before = free_pages_of(bytes);
    assert_eq!(calls::prune(bytes, version), 0);
    let after = free_pages_of(bytes).into_iter();
    after.filter(|number| !before.contains(number)).collect()
}

/// Up to 200 calls of a history, and no end of an update among them; now and then a
/// prune in the open one, which is refused. Whether an update is open then.
fn works_on(bytes: &mut [u8], seed: u64, version: u32, rng: &mut Rng) -> bool {
    let (model, pages) = (Model::of_store(bytes), store::page_count(bytes) as usize);
    // None of these prunes of its own.
    let quiet = seed / 8 * 16 + seed % 8;
    let mut history = History::on_store_of(&SECOND, quiet, KINDS[seed as usize % 4], pages, model);
    for _ in 0..rng.between(20, 200) {
        let call = history.next_call();
        if matches!(call, Call::Commit | Call::Abandon | Call::FreshSecond) {
            break;
        }
        let mut list = vec![0; call.list_length()];
        let answer = apply(call, bytes, &mut list);
        history.observe(call, &answer);
        if history.model().is_open() && rng.once_in(8) {
            let before = bytes.to_vec();
            assert_eq!(calls::prune(bytes, version), 8);
            assert_eq!(bytes, before);
        }
    }
    history.model().is_open()
}

/// Demand 3 after a prune, to the byte, whatever was done in the update; a prune
/// in it is refused, and an abandon does not undo the one before it.
#[test]
fn abandoned_behind_a_prune() {
    let (mut reused, mut closed) = (0, 0);
    for seed in 0..rounds(250) {
        let mut rng = Rng::new(seed);
        let mut bytes = some_closed_store(&mut rng);
        let version = some_committed(&bytes, &mut rng);
        let freed = freed_by_prune(&mut bytes, version);
        let pruned = bytes.clone();
        let is_open = works_on(&mut bytes, seed, version, &mut rng);
        let used = |number: &&u32| store::level(&bytes, **number) > 0;
        reused += freed.iter().filter(used).count();
        match is_open {
            true => abandon(&mut bytes),
            false => closed += 1,
        }
        assert_eq!(bytes, pruned, "seed {seed}");
        assert_eq!(calls::abandon(&mut bytes), 7);
    }
    println!("{reused} freed pages in use before the abandon; {closed} closed before");
    assert!(reused > 20 && closed < 20);
}

/// Edition 1 has no oldest version: 3, whatever the version and the store.
#[test]
fn edition_1_gives_3() {
    for seed in 0..rounds(100) {
        let mut rng = Rng::new(seed);
        let mut bytes = sound_store(seed);
        if rng.once_in(3) {
            set_some_field(&mut bytes, &mut rng);
        }
        let before = bytes.clone();
        let current = store::header(&bytes).current;
        for version in [0, current, current + 1, rng.word(), u32::MAX] {
            assert_eq!(calls::prune(&mut bytes, version), 3);
        }
        // Before 1 by the page size.
        let cut = rng.between(5, bytes.len() as u32) as usize;
        assert_eq!(calls::prune(&mut bytes[..cut], 0), 3);
        assert_eq!(bytes, before);
    }
}

/// 4, then 6, then 8, on stores of edition 2.
#[test]
fn refusals_on_many_stores() {
    let mut met = BTreeMap::<u32, u64>::new();
    for seed in 0..rounds(300) {
        let mut rng = Rng::new(seed);
        let mut bytes = match rng.once_in(2) {
            true => second_store(seed),
            false => rng.pick(pruned_stores()).unwrap().clone(),
        };
        if rng.once_in(4) {
            set_some_field(&mut bytes, &mut rng);
        }
        let header = store::header(&bytes);
        let judged = verdict_or_sound(&bytes);
        for _ in 0..4 {
            let version = match rng.below(6) {
                0 => header.current + 1,
                1 => header.oldest.wrapping_sub(1),
                2 => rng.word(),
                _ => rng.between(0, header.current),
            };
            let expected = match judged {
                0 if version < header.oldest || version > header.current => 6,
                0 if header.open => 8,
                number => number,
            };
            let mut after = bytes.clone();
            assert_eq!(calls::prune(&mut after, version), expected, "seed {seed}");
            assert!(expected == 0 || after == bytes);
            *met.entry(expected).or_default() += 1;
        }
    }
    println!("{met:?}");
    for number in [0, 4, 6, 8] {
        assert!(met[&number] > 30, "{met:?}");
    }
}

/// The literal judge goes through every version.
fn verdict_or_sound(bytes: &[u8]) -> u32 {
    match store::header(bytes).last() < 5000 {
        true => verdict(bytes).0,
        false => calls::check(bytes).0,
    }
}

/// Each kind of damage on pruned stores, by the lowest rule that it breaks, and
/// by the literal judge.
#[test]
fn damage_breaks_the_rule_meant() {
    let mut of_kind = BTreeMap::<(u32, &str), u64>::new();
    for (seed, sound) in pruned_stores().iter().enumerate() {
        let mut rng = Rng::new(seed as u64);
        for kind in kinds() {
            let mut bytes = sound.clone();
            let found = kind.make(&mut bytes, &mut rng);
            *of_kind.entry((kind.rule, kind.name)).or_default() += u64::from(found);
            if !found {
                continue;
            }
            let judged = calls::check(&bytes);
            assert_eq!(judged, (4, kind.rule), "{}, seed {seed}", kind.name);
            if (seed as u32 + kind.rule).is_multiple_of(8) {
                assert_eq!(verdict(&bytes), judged, "{}, seed {seed}", kind.name);
            }
            let mut after = bytes.clone();
            let version = store::header(sound).current;
            assert_eq!(calls::prune(&mut after, version), 4);
            assert_eq!(after, bytes);
        }
    }
    for ((rule, name), times) in &of_kind {
        println!("rule {rule} {times:>5} times: {name}");
        assert!(*times >= 10, "{name}: {times}");
    }
}

/// Bits and fields changed, the oldest version among them.
#[test]
fn both_judges_on_changed_fields() {
    let mut met = BTreeMap::<(u32, u32), u64>::new();
    for seed in 0..rounds(6000) {
        let mut rng = Rng::new(seed);
        let mut bytes = rng.pick(pruned_stores()).unwrap().clone();
        for _ in 0..rng.between(1, 3) {
            match rng.below(6) {
                0 => flip_bit(&mut bytes, &mut rng),
                1 => {
                    let version = rng.between(0, store::header(&bytes).last() + 1);
                    SECOND.oldest.unwrap().set(&mut bytes, version);
                }
                _ => set_some_field(&mut bytes, &mut rng),
            }
        }
        let judged = calls::check(&bytes);
        if store::header(&bytes).last() < 5000 {
            assert_eq!(verdict(&bytes), judged, "seed {seed}");
        }
        *met.entry(judged).or_default() += 1;
    }
    println!("{met:?}");
    for rule in [1, 2, 3, 4, 6, 8] {
        assert!(met[&(4, rule)] > 50, "{met:?}");
    }
}

/// What a pruned store bears: sound to both judges, and all versions from the
/// oldest on as they were.
#[test]
fn what_a_pruned_store_bears() {
    let mut met = BTreeMap::<&str, u64>::new();
    for seed in 0..rounds(1500) {
        let mut rng = Rng::new(seed);
        let sound = rng.pick(pruned_stores()).unwrap();
        let mut bytes = sound.clone();
        let Some(name) = pruned::unsettle(&mut bytes, &mut rng) else {
            continue;
        };
        *met.entry(name).or_default() += 1;
        assert_sound(&bytes);
        assert_eq!(verdict(&bytes), (0, 0), "{name}, seed {seed}");
        let header = store::header(&bytes);
        for version in header.oldest..=header.last() {
            let settings = |bytes: &[u8]| walk::range(bytes, 0, HIGHEST_KEY, version);
            assert_eq!(settings(&bytes), settings(sound), "{name}, seed {seed}");
        }
    }
    println!("{met:?}");
    assert_eq!(met.len(), pruned::CHANGES.len());
    assert!(met.values().all(|times| *times >= 20), "{met:?}");
}

/// Histories that go on from such stores, with prunes among their calls.
#[test]
fn histories_go_on() {
    let (mut prunes, mut abandons) = (0, 0);
    for (seed, bytes) in (0u64..).zip(pruned_stores()).take(rounds(200) as usize) {
        let pages = store::page_count(bytes) as usize;
        let kind = KINDS[seed as usize % 4];
        let model = Model::of_store(bytes);
        // Of these every one prunes.
        let mut history = History::on_store_of(&SECOND, seed | 8, kind, pages, model);
        let followed = follow(&mut history, bytes.clone(), 60);
        prunes += followed.prunes;
        abandons += followed.abandons;
    }
    println!("{prunes} prunes, {abandons} abandons");
    assert!(prunes > 50 && abandons > 20);
}

/// A store that is pruned to its last versions goes on in the pages that it has,
/// where without that it runs out; and what stays is what the model keeps.
#[test]
fn pruned_again_and_again() {
    let releases = rounds(300) as u32;
    let run = |keep: Option<u32>| {
        let mut rng = Rng::new(12);
        let mut bytes = fresh_second(24);
        open(&mut bytes);
        insert_all(&mut bytes, (0..120).map(|key| key * 3));
        commit(&mut bytes);
        for release in 2..=releases {
            open(&mut bytes);
            for _ in 0..3 {
                let key = rng.below(120) * 3;
                if calls::delete(&mut bytes, key) == 12
                    || calls::insert(&mut bytes, key, rng.word()) == 12
                {
                    return (release, bytes);
                }
            }
            commit(&mut bytes);
            if let Some(keep) = keep.filter(|keep| release.is_multiple_of(*keep)) {
                let version = release - keep.min(release);
                let expected = literal::pruned(&bytes, version);
                assert_eq!(calls::prune(&mut bytes, version), 0);
                assert_eq!(bytes, expected);
                assert_eq!(verdict(&bytes), (0, 0));
            }
        }
        (releases, bytes)
    };
    let (stopped, _) = run(None);
    assert!(stopped < 200, "{stopped}");
    let (reached, bytes) = run(Some(10));
    assert_eq!(reached, releases);
    assert_eq!(store::header(&bytes).oldest, releases - 10);
    println!("without prunes it runs out at release {stopped}");
}

/// A converter's target has the oldest version 0; a pruned store is no source.
#[test]
fn fresh_and_converted_stores_have_none() {
    for seed in 0..rounds(30) {
        for edition in EDITIONS {
            let mut bytes = sound_store_of(edition, seed);
            if store::header(&bytes).open {
                abandon(&mut bytes);
            }
            let before = bytes.clone();
            let mut target = vec![0xEE; 400 * 512];
            let number = calls::convert(&before, &mut target);
            assert_eq!(number == 3, edition != &FIRST);
            if number == 0 {
                assert_eq!(store::header(&target).oldest, 0);
            }
        }
        let mut bytes = pruned_store(seed);
        assert_eq!(calls::fresh_second(&mut bytes), 0);
        let pages = store::page_count(&bytes) as usize;
        assert_eq!(bytes, fresh_second(pages));
        assert!(Image::read(&bytes).pages[1..].iter().all(Page::is_free));
    }
}

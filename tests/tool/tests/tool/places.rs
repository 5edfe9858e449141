//! Where a store is wrong: every kind of damage is placed, under the rule that it
//! breaks.

use reference::calls;
use reference::damage;
use reference::edition::EDITIONS;
use reference::history::{calls_of, KINDS};
use reference::image::Image;
use reference::rng::Rng;
use reference::{samples, store};
use tool::{times, Folder};

/// A pruned store with an update open in which the root became an index page.
fn growing() -> Vec<u8> {
    let mut bytes = vec![0; 64 * 512];
    assert_eq!(calls::fresh_second(&mut bytes), 0);
    for release in 0..3u32 {
        assert_eq!(calls::open(&mut bytes), 0);
        for key in 20 * release..20 * release + 20 {
            assert_eq!(calls::insert(&mut bytes, key, release), 0);
        }
        if release < 2 {
            assert_eq!(calls::commit(&mut bytes), 0);
            assert_eq!(calls::prune(&mut bytes, release + 1), 0);
        }
    }
    bytes
}

/// Sound stores of both editions, and pruned ones.
fn stores() -> Vec<Vec<u8>> {
    let many = times("RCST_DAMAGES", 4);
    let pruned = (0..3 * many as u64).map(samples::pruned_store);
    let mut stores: Vec<Vec<u8>> = pruned.chain([growing()]).collect();
    for edition in EDITIONS {
        for seed in 0..many {
            let shape = KINDS[seed % KINDS.len()];
            stores.push(calls_of(edition, seed as u64, shape, 40, 220).1);
        }
    }
    stores
}

/// A file of the folder in which a rule is broken, and the damage that broke it.
struct Broken {
    file: String,
    rule: u32,
    name: &'static str,
}

/// Every kind of damage in each store that has a place for it; all rules are broken
/// somewhere.
fn every_damage(folder: &Folder) -> Vec<Broken> {
    let mut all = Vec::new();
    let stores = stores();
    for (kind, damage) in damage::kinds().iter().enumerate() {
        for (place, store) in stores.iter().enumerate() {
            let mut rng = Rng::new(1000 * kind as u64 + place as u64);
            let mut bytes = store.clone();
            if damage.make(&mut bytes, &mut rng) {
                let (rule, name) = (damage.rule, damage.name);
                let file = format!("{kind}-{place}");
                folder.put(&file, bytes);
                all.push(Broken { file, rule, name });
            }
        }
    }
    assert!(all.len() > 100, "{}", all.len());
    for rule in 1..=8 {
        let broken = all.iter().any(|broken| broken.rule == rule);
        assert!(broken, "rule {rule}");
    }
    all
}

#[test]
fn every_damage_has_a_place() {
    let folder = Folder::new();
    let all = every_damage(&folder);
    let files = all.iter().map(|broken| &broken.file[..]);
    let words: Vec<&str> = ["check", "--csv"].into_iter().chain(files).collect();
    let said = folder.run(&words);
    assert_eq!((said.status, &said.err[..]), (4, ""));
    let rows: Vec<&str> = said.out.split("\n    ").collect();
    assert_eq!(rows.len(), all.len() + 1);
    for (place, Broken { file, rule, name }) in all.iter().enumerate() {
        let row = rows[place].lines().last().expect("a row");
        let begins = format!("{file},4,{rule},");
        assert!(row.starts_with(&begins), "{name}: {row}");
        let found = rows[place + 1].lines().next().expect("a place");
        let placed = ["page ", "slot ", "version "]
            .iter()
            .any(|word| found.starts_with(word));
        assert!(placed, "{name}: {found}");
        let bytes = folder.bytes(file);
        assert!(!is_skipped(&bytes, *rule, found), "{name}: {found}");
    }
}

/// Whether a place is one of which the rules do not speak: a version before the
/// oldest, or, by rule 3, a router that ended by it.
fn is_skipped(bytes: &[u8], rule: u32, place: &str) -> bool {
    let oldest = store::header(bytes).oldest;
    let number = |word: &str| -> Option<u32> {
        let behind = place.split(word).nth(1)?;
        behind.split([',', ':', ' ']).next()?.parse().ok()
    };
    if place.starts_with("version ") {
        return number("version ").is_some_and(|version| version < oldest);
    }
    let (Some(page), Some(entry), 3) = (number("page "), number("entry "), rule) else {
        return false;
    };
    let image = Image::read(bytes);
    let page = image.page(page);
    page.is_index() && page.entries[entry as usize].span.end <= oldest
}

#[test]
fn a_place_in_words() {
    let folder = Folder::new();
    folder.done(&["new", "s", "6"], "");
    let mut bytes = folder.bytes("s");
    bytes[300] = 1;
    folder.put("s", bytes);
    let said = folder.run(&["check", "s"]);
    assert_eq!(said.status, 4);
    assert!(
        said.out.starts_with("s: 4, not sound: rule 1, "),
        "{}",
        said.out
    );
    assert!(
        said.out
            .ends_with("\n    page 1, slot 11: not used, and not zero\n"),
        "{}",
        said.out
    );
}

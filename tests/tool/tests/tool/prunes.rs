//! Prunes: what goes, what is kept, every refusal, and pruned stores used on.

use std::fs;
use std::os::unix::fs::PermissionsExt;

use reference::edition::SECOND;
use reference::history::{calls_of, KINDS};
use reference::{calls as plain, check, store};
use tool::Folder;

/// A release that gives sixty settings the values of a number.
fn release(number: u32) -> String {
    (0..60)
        .map(|key| format!("set {} {}\n", 3 * key, key * number))
        .collect()
}

/// A store of edition 2 with so many of them.
fn released(releases: u32) -> Folder {
    let folder = Folder::new();
    folder.done(&["new", "s", "64", "--edition", "2"], "");
    for number in 1..=releases {
        folder.done(&["apply", "s"], &release(number));
    }
    folder
}

/// Stores of edition 2 that histories leave, prunes among their calls, with no
/// update open.
fn histories() -> impl Iterator<Item = Vec<u8>> {
    (8..16).map(|seed| {
        let kind = KINDS[seed % KINDS.len()];
        let (_, mut bytes) = calls_of(&SECOND, seed as u64, kind, 64, 300);
        plain::abandon(&mut bytes);
        bytes
    })
}

/// The numbers of the versions that a store keeps.
fn kept(bytes: &[u8]) -> std::ops::RangeInclusive<u32> {
    let header = store::header(bytes);
    header.oldest..=header.current
}

#[test]
fn it_says_what_goes() {
    let folder = released(6);
    let before = folder.bytes("s");
    let gone = "versions 0 to 3 dropped\n7 pages freed, 51 free\n1 root freed, 511 free\n";
    assert_eq!(folder.done(&["prune", "s", "4", "--dry-run"], ""), gone);
    assert_eq!(folder.bytes("s"), before);
    let said = folder.done(&["prune", "s", "4"], "");
    assert_eq!(said, format!("{gone}oldest version 4\n"));
    let after = folder.bytes("s");
    let nothing = "no version dropped\nno page freed, 51 free\nno root freed, 511 free\n";
    let said = folder.done(&["prune", "s", "@4"], "");
    assert_eq!(said, format!("{nothing}oldest version 4\n"));
    assert_eq!(folder.bytes("s"), after);
    let said = folder.done(&["prune", "s", "5"], "");
    assert!(said.starts_with("version 4 dropped\n"), "{said}");
    assert_eq!(folder.names(), ["s"]);
}

#[test]
fn info_log_and_life_begin_at_the_oldest() {
    let folder = released(6);
    assert!(folder
        .done(&["info", "s"], "")
        .contains("\nevery version is kept\n"));
    folder.done(&["prune", "s", "4"], "");
    let info = folder.done(&["info", "s"], "");
    assert!(
        info.contains("\nversions from 4 on are kept, those before were pruned\n"),
        "{info}"
    );
    let json = folder.done(&["info", "s", "--json"], "");
    assert!(
        json.contains("{\"what\":\"oldest\",\"number\":4}"),
        "{json}"
    );
    let changed = |version| format!("version {version}: 0 added, 0 removed, 59 changed\n");
    let log = [changed(6), changed(5)].concat();
    let oldest = "version 4: the oldest that is kept\n";
    assert_eq!(folder.done(&["log", "s"], ""), format!("{log}{oldest}"));
    assert_eq!(folder.done(&["log", "s", "-n", "2"], ""), log);
    let csv = folder.done(&["log", "s", "--csv"], "");
    assert!(csv.ends_with("\n5,0,0,59\n4,,,\n"), "{csv}");
    let life = "from 4 to 4: 4\nfrom 5 to 5: 5\nfrom 6 on: 6\n";
    assert_eq!(folder.done(&["life", "s", "3"], ""), life);
    assert_eq!(folder.done(&["life", "s", "0"], ""), "from 4 on: 0\n");
}

/// Each reading of a version that is not there says why.
#[test]
fn what_is_asked_below_the_oldest() {
    let folder = released(6);
    folder.done(&["prune", "s", "4"], "");
    let readings: [&[&str]; 8] = [
        &["get", "s", "3@V"],
        &["list", "s", "@V"],
        &["list", "s", "@V", "0", "9"],
        &["diff", "s", "V", "5"],
        &["diff", "s", "5", "V"],
        &["return", "s", "V"],
        &["draw", "s", "--tree", "@V"],
        &["prune", "s", "V"],
    ];
    let pruned = ": 6, version above last or below the oldest";
    for (version, sentence) in [
        ("0", "\nversion 0 was pruned; 4 is the oldest\n"),
        ("3", "\nversion 3 was pruned; 4 is the oldest\n"),
        ("7", "\nthere is no version 7; 6 is the last\n"),
    ] {
        for words in readings {
            let words: Vec<String> = words
                .iter()
                .map(|word| word.replace('V', version))
                .collect();
            let words: Vec<&str> = words.iter().map(|word| &word[..]).collect();
            folder.refused(&words, "", 6, sentence);
            folder.refused(&words, "", 6, pruned);
        }
    }
    let names = "0 first whole 0 1000\n3 second whole 0 1000\n";
    folder.put("names", names);
    let words = ["get", "s", "second@3", "--names", "names"];
    folder.refused(&words, "", 6, "version 3 was pruned");
    assert_eq!(folder.done(&["get", "s", "3@4"], ""), "4\n");
}

#[test]
fn refusals() {
    let folder = released(2);
    for (words, sentence) in [
        (&["prune", "s"][..], "usage: rcst prune FILE V [--dry-run]"),
        (&["prune", "s", "x"], "x: not a number"),
        (&["prune", "s", "1", "2"], "2: one word too many"),
    ] {
        folder.refused(words, "", 64, sentence);
    }
    folder.refused(&["prune", "none", "1"], "", 66, "none: no such file");
    folder.refused(&["prune", "s", "3"], "", 6, "s: prune to 3: 6, version");
    folder.done(&["new", "old", "16"], "");
    let first = ["prune", "old", "0"];
    folder.refused(&first, "", 3, "old: prune to 0: 3, edition");
    folder.refused(&first, "", 3, "\nonly edition 2 has an oldest version;");
}

#[test]
fn refusals_while_an_update_is_open() {
    let folder = released(2);
    let mut open = folder.bytes("s");
    assert_eq!(plain::open(&mut open), 0);
    folder.put("open", open);
    folder.refused(
        &["prune", "open", "1"],
        "",
        8,
        "open: prune to 1: 8, update",
    );
    folder.refused(&["prune", "open", "1"], "", 8, "\na program ended inside");
    folder.refused(
        &["prune", "open", "3"],
        "",
        6,
        "\nthere is no version 3; 2 is the last",
    );
    folder.refused(&["prune", "open", "1", "--dry-run"], "", 8, "prune to 1: 8");
}

#[test]
fn refusals_of_what_is_no_sound_store() {
    let folder = released(2);
    for (place, status, sentence) in [
        (0, 2, "prune to 1: 2, first four bytes wrong"),
        (4, 3, "prune to 1: 3, edition neither"),
        (200, 4, "prune to 1: 4, not sound"),
    ] {
        let mut bytes = folder.bytes("s");
        bytes[place] ^= 0x40;
        folder.put("wrong", bytes);
        folder.refused(&["prune", "wrong", "1"], "", status, sentence);
    }
    folder.put("cut", &folder.bytes("s")[..1000]);
    folder.refused(&["prune", "cut", "1"], "", 1, "prune to 1: 1, length");
}

#[test]
fn files_that_cannot_be_written() {
    let folder = released(2);
    folder.put("letter", "a letter");
    std::os::unix::fs::symlink("letter", folder.path("s.rcst-new")).expect("a link");
    folder.refused(&["prune", "s", "1"], "", 74, "s.rcst-new: is a link");
    fs::remove_file(folder.path("s.rcst-new")).expect("a link");
    // no reader of what it says: the store is pruned all the same
    let said = folder.script("rcst prune s 1 > /dev/full");
    assert_eq!(said.status, 74, "{}", said.err);
    assert!(said.err.contains("standard output: no space left"));
    assert_eq!(store::header(&folder.bytes("s")).oldest, 1);
    fs::set_permissions(folder.path("s"), fs::Permissions::from_mode(0o444)).expect("a mode");
    let before = folder.bytes("s");
    let said = folder.run(&["prune", "s", "2"]);
    assert_eq!((said.status, folder.bytes("s") == before), (74, true));
}

/// To the byte what the independent program makes, and every version from the oldest
/// on reads as before.
#[test]
fn histories_pruned_to_each_version() {
    let folder = Folder::new();
    let mut freed = 0;
    for bytes in histories() {
        for version in kept(&bytes) {
            let mut due = bytes.clone();
            assert_eq!(plain::prune(&mut due, version), 0);
            folder.put("s", &bytes);
            let last = kept(&bytes).end().to_string();
            let at = version.to_string();
            let before = folder.run(&["diff", "s", &at, &last]);
            folder.done(&["prune", "s", &at], "");
            assert!(folder.bytes("s") == due, "pruned to {version}");
            assert_eq!(folder.run(&["diff", "s", &at, &last]), before);
            assert_eq!(folder.done(&["check", "s"], ""), "s: sound\n");
            freed += usize::from(due != bytes);
        }
    }
    assert!(freed > 20, "{freed}");
}

/// A store that would be full long since runs on, in the pages that prunes free.
#[test]
fn used_on_for_ever() {
    let folder = Folder::new();
    folder.done(&["new", "s", "24", "--edition", "2"], "");
    let mut full = 0;
    for number in 1..=60 {
        let said = folder.run_with(&["apply", "s"], &release(number));
        if said.status == 12 {
            full += 1;
            let oldest = (number - 3).to_string();
            folder.done(&["prune", "s", &oldest], "");
            assert_eq!(
                folder.done(&["apply", "s"], &release(number)),
                format!("version {number}\n")
            );
        } else {
            assert_eq!(said.status, 0, "{}", said.err);
        }
    }
    assert!(full > 5, "{full}");
    let bytes = folder.bytes("s");
    assert_eq!(check::judge(&bytes), (0, 0));
    for version in kept(&bytes) {
        let due: String = (0..60)
            .map(|key| format!("{} {}\n", 3 * key, key * version))
            .collect();
        let listed = folder.done(&["list", "s", &format!("@{version}")], "");
        assert_eq!(listed, due, "{version}");
    }
}

/// An update that a crash left open, in freed pages: abandoned, every byte is back.
#[test]
fn abandoned_after_a_prune() {
    let folder = released(6);
    folder.done(&["prune", "s", "5"], "");
    let before = folder.bytes("s");
    let mut open = before.clone();
    assert_eq!(plain::open(&mut open), 0);
    for key in 200..300 {
        assert_eq!(plain::insert(&mut open, key, key), 0);
    }
    folder.put("s", open);
    folder.done(&["abandon", "s"], "");
    assert_eq!(folder.bytes("s"), before);
    folder.done(&["return", "s", "5"], "");
    assert_eq!(
        folder.done(&["list", "s"], ""),
        folder.done(&["list", "s", "@5"], "")
    );
}

/// The text of a pruned store, and back: its oldest version, and equal answers at
/// each version from there on.
#[test]
fn dumped_and_loaded() {
    let folder = released(6);
    folder.done(&["prune", "s", "4"], "");
    let text = folder.done(&["dump", "s"], "");
    let head = "rcst-dump 1\nedition 2\npages 64\noldest 4\nversion 4\nset 0 0\nset 3 4\n";
    assert!(text.starts_with(head), "{text}");
    folder.done(&["load", "t"], &text);
    assert_eq!(folder.done(&["dump", "t"], ""), text);
    folder.refused(&["list", "t", "@3"], "", 6, "version 3 was pruned");
    let mut loaded = 0;
    for bytes in histories() {
        folder.put("h", &bytes);
        let text = folder.done(&["dump", "h"], "");
        let said = folder.run_with(&["load", "u", "--pages", "200"], &text);
        assert_eq!(said.status, 0, "{}", said.err);
        let again = folder.done(&["dump", "u"], "");
        assert_eq!(again.replace("pages 200\n", "pages 64\n"), text);
        assert_eq!(check::judge(&folder.bytes("u")), (0, 0));
        for version in kept(&bytes) {
            let at = format!("@{version}");
            let due = folder.done(&["list", "h", &at], "");
            assert_eq!(folder.done(&["list", "u", &at], ""), due, "{version}");
        }
        fs::remove_file(folder.path("u")).expect("a file");
        loaded += usize::from(*kept(&bytes).start() > 1);
    }
    assert!(loaded > 3, "{loaded}");
}

#[test]
fn texts_that_no_pruned_store_has() {
    let folder = Folder::new();
    let head = "rcst-dump 1\nedition 2\npages 16\n";
    let wrong = [
        ("HEADoldest 0\nend 0\n", 65, "line 4: oldest 0"),
        (
            "HEADoldest 1048575\nversion 1048575\n",
            65,
            "line 4: oldest",
        ),
        ("HEADoldest 3\nversion 1\nend 1\n", 65, "line 5: version 1"),
        ("HEADoldest 3\nset 1 1\nend 3\n", 65, "line 5: set 1 1"),
        ("HEADoldest 3\nend 2\n", 65, "line 5: end 2"),
        ("HEADoldest 3\nversion 3\nend 2\n", 65, "line 6: end 2"),
        (
            "HEADversion 1\nset 1 1\noldest 1\nend 1\n",
            65,
            "line 6: oldest 1",
        ),
        (
            "rcst-dump 1\nedition 1\npages 16\noldest 3\nversion 3\nend 3\n",
            3,
            "oldest 3: 3",
        ),
    ];
    folder.loads_none(head, &wrong);
    // whatever the oldest version has at the key that the dropped ones use, and more of
    // these than the pages hold at once
    for settings in ["", "set 0 0\n", "set 0 1\n", "set 0 0\nset 1 1\n"] {
        let text = format!("{head}oldest 1000\nversion 1000\n{settings}end 1000\n");
        folder.done(&["load", "t"], &text);
        assert_eq!(folder.done(&["dump", "t"], ""), text);
        fs::remove_file(folder.path("t")).expect("a file");
    }
}

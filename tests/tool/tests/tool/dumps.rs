//! Text of all versions and back: equal answers at every version.

use reference::history::{calls, KINDS};
use reference::model::Model;
use reference::{calls as plain, store};
use tool::Folder;

/// A store that a history leaves, with no update open.
fn closed(seed: u64) -> Vec<u8> {
    let kind = KINDS[seed as usize % KINDS.len()];
    let (_, mut bytes) = calls(seed, kind, 48, 300);
    plain::abandon(&mut bytes);
    bytes
}

#[test]
fn every_version_reads_the_same() {
    let folder = Folder::new();
    let mut tried = 0;
    for seed in 0..12 {
        let bytes = closed(seed);
        folder.put("s", &bytes);
        let text = folder.done(&["dump", "s"], "");
        let loaded = folder.run_with(&["load", "t", "--pages", "200"], &text);
        if loaded.status == 13 {
            continue;
        }
        assert_eq!(loaded.status, 0, "seed {seed}: {}", loaded.err);
        let (was, is) = (Model::of_store(&bytes), Model::of_store(&folder.bytes("t")));
        let current = store::header(&bytes).current;
        assert_eq!(store::header(&folder.bytes("t")).current, current);
        for version in 0..=current {
            assert_eq!(
                was.at(version),
                is.at(version),
                "seed {seed}, version {version}"
            );
        }
        let again = folder.done(&["dump", "t"], "");
        assert_eq!(
            again.replace("pages 200\n", "pages 48\n"),
            text,
            "seed {seed}"
        );
        std::fs::remove_file(folder.path("t")).expect("a file");
        tried += 1;
    }
    assert!(tried > 6, "{tried}");
}

#[test]
fn a_text_that_is_no_dump() {
    let folder = Folder::new();
    let head = "rcst-dump 1\nedition 1\npages 6\n";
    let wrong = [
        ("", 65, "the text ends"),
        ("rcst-dump 1\n", 65, "the text ends"),
        (
            "rcst-dump 1\nedition 3\npages 6\nend 0\n",
            3,
            "edition 3: 3",
        ),
        ("rcst-dump 1\nedition 1\npages 5\nend 0\n", 1, "5 pages"),
        ("HEADversion 1\nset 1 1\n", 65, "the text ends"),
        ("HEADversion 2\nset 1 1\nend 2\n", 65, "line 4: version 2"),
        ("HEADset 1 1\nend 0\n", 65, "line 4: set 1 1"),
        ("HEADversion 1\nset 1 1\nend 2\n", 65, "line 6: end 2"),
        (
            "HEADversion 1\nset 1 1\nend 1\nend 1\n",
            65,
            "line 7: end 1",
        ),
        ("HEADversion 1\nend 1\n", 15, "version 1: 15"),
        ("HEADversion 1\nunset 1\nend 1\n", 11, "line 5: unset 1: 11"),
        ("HEADversion 1\nset 16777215 1\nend 1\n", 5, "line 5"),
    ];
    folder.loads_none(head, &wrong);
}

#[test]
fn a_store_that_is_too_small() {
    let folder = Folder::new();
    let many: String = (0..30).map(|key| format!("set {key} 1\n")).collect();
    let text = format!("rcst-dump 1\nedition 1\npages 6\nversion 1\n{many}end 1\n");
    folder.refused(&["load", "t"], &text, 12, "--pages N");
    folder.done(&["load", "t", "--pages", "16"], &text);
    assert_eq!(folder.bytes("t").len(), 16 * 256);
}

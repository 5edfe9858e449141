//! Stores of edition 2, and the converter.

use tool::Folder;

/// Three releases of a hundred settings.
fn filled(folder: &Folder, name: &str) {
    for release in 1..=3 {
        let changes: String = (0..100)
            .map(|key| format!("set {} {}\n", 7 * key, key * release))
            .collect();
        folder.done(&["apply", name], &changes);
    }
}

#[test]
fn a_store_of_edition_2() {
    let folder = Folder::new();
    folder.done(&["new", "s", "64", "--edition", "2"], "");
    assert_eq!(folder.bytes("s").len(), 64 * 512);
    filled(&folder, "s");
    let info = folder.done(&["info", "s"], "");
    assert!(
        info.starts_with("edition 2\nversion 3, with 100 settings\n"),
        "{info}"
    );
    assert!(info.contains(" of 512 roots used"), "{info}");
    assert_eq!(folder.done(&["check", "s"], ""), "s: sound\n");
    assert_eq!(folder.done(&["get", "s", "70@2"], ""), "20\n");
    let svg = folder.done(&["draw", "s"], "");
    assert_eq!(svg.matches("<circle").count(), 100 + 99 + 99);
    folder.done(&["draw", "s", "--tree"], "");
    let text = folder.done(&["dump", "s"], "");
    folder.done(&["load", "t"], &text);
    assert_eq!(folder.done(&["dump", "t"], ""), text);
}

#[test]
fn damage_to_it_is_placed() {
    let folder = Folder::new();
    folder.done(&["new", "s", "64", "--edition", "2"], "");
    let mut bytes = folder.bytes("s");
    bytes[512 + 4 * 130] = 1;
    folder.put("s", bytes);
    let said = folder.run(&["check", "s"]);
    assert_eq!(said.status, 4);
    assert!(
        said.out
            .ends_with("page 2, slot 130: not used, and not zero\n"),
        "{}",
        said.out
    );
}

#[test]
fn converted_every_version_reads_the_same() {
    let folder = Folder::new();
    folder.done(&["new", "s", "200"], "");
    filled(&folder, "s");
    let before = folder.bytes("s");
    folder.done(&["convert", "s", "t", "100"], "");
    assert_eq!(folder.bytes("s"), before);
    for version in ["@0", "@1", "@2", "@3"] {
        let was = folder.done(&["list", "s", version], "");
        assert_eq!(folder.done(&["list", "t", version], ""), was, "{version}");
    }
    folder.refused(&["convert", "t", "u", "100"], "", 3, "convert: 3");
    folder.refused(&["convert", "s", "t", "100"], "", 74, "is there already");
    folder.refused(&["convert", "s", "u", "5"], "", 1, "convert: 1");
    folder.refused(&["convert", "s", "u", "6"], "", 12, "convert: 12");
}

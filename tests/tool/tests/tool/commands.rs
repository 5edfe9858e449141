//! Each command, done: what it writes, to the letter.

use tool::Folder;

/// README's two releases: setting 40 is 7, then 9; setting 41 is 300.
fn two_releases() -> Folder {
    let folder = Folder::new();
    assert_eq!(folder.done(&["new", "s", "64"], ""), "");
    assert_eq!(
        folder.done(&["apply", "s"], "set 40 7\nset 41 300\n"),
        "version 1\n"
    );
    assert_eq!(
        folder.done(&["apply", "s"], "# a comment\n\nset 40 9"),
        "version 2\n"
    );
    folder
}

#[test]
fn new_is_the_fresh_store() {
    let folder = Folder::new();
    folder.done(&["new", "s", "6"], "");
    let mut fresh = vec![0; 6 * 256];
    reference::store::write_fresh(&reference::edition::FIRST, &mut fresh);
    assert_eq!(folder.bytes("s"), fresh);
    folder.done(&["new", "--edition", "1", "--", "t", "4096"], "");
    assert_eq!(folder.bytes("t").len(), 4096 * 256);
    assert_eq!(folder.names(), ["s", "t"]);
}

#[test]
fn info_says_it_in_words() {
    let folder = two_releases();
    let said = folder.done(&["info", "s"], "");
    assert_eq!(
        said,
        "edition 1\nversion 2, with 2 settings\nevery version is kept\nno update is open\n\
         64 pages: 5 for header and directory, 1 used, 58 free\n\
         58 free: any one change fits (none takes more than 15)\n\
         1 of 256 roots used: 255 more releases may move the root\n\
         1048572 more releases can be numbered\n"
    );
    let json = folder.done(&["info", "s", "--json"], "");
    assert!(
        json.contains("{\"what\":\"version\",\"number\":2}"),
        "{json}"
    );
}

#[test]
fn get_and_list() {
    let folder = two_releases();
    assert_eq!(folder.done(&["get", "s", "40"], ""), "9\n");
    assert_eq!(folder.done(&["get", "s", "40@1"], ""), "7\n");
    assert_eq!(folder.done(&["get", "s", "40@0"], ""), "absent\n");
    let json = folder.done(&["get", "s", "40@1", "--json"], "");
    assert_eq!(json, "[\n{\"key\":40,\"version\":1,\"value\":7}\n]\n");
    let absent = folder.done(&["get", "--json", "s", "50"], "");
    assert_eq!(absent, "[\n{\"key\":50,\"version\":2,\"value\":null}\n]\n");
    assert_eq!(folder.done(&["list", "s"], ""), "40 9\n41 300\n");
    assert_eq!(folder.done(&["list", "s", "@1"], ""), "40 7\n41 300\n");
    assert_eq!(
        folder.done(&["list", "s", "@1", "41", "50"], ""),
        "41 300\n"
    );
    assert_eq!(folder.done(&["list", "s", "@0"], ""), "");
    assert_eq!(folder.done(&["list", "s", "@0", "--json"], ""), "[]\n");
    assert_eq!(
        folder.done(&["list", "s", "--csv"], ""),
        "key,value\n40,9\n41,300\n"
    );
    let json = folder.done(&["list", "s", "--json"], "");
    assert_eq!(
        json,
        "[\n{\"key\":40,\"value\":9},\n{\"key\":41,\"value\":300}\n]\n"
    );
}

#[test]
fn log_life_and_diff() {
    let folder = two_releases();
    let newest = "version 2: 0 added, 0 removed, 1 changed\n";
    let oldest = "version 1: 2 added, 0 removed, 0 changed\n";
    assert_eq!(folder.done(&["log", "s"], ""), [newest, oldest].concat());
    assert_eq!(folder.done(&["log", "s", "-n", "1"], ""), newest);
    assert_eq!(
        folder.done(&["log", "s", "--csv", "-n", "1"], ""),
        "version,added,removed,changed\n2,0,0,1\n"
    );
    assert_eq!(
        folder.done(&["life", "s", "40"], ""),
        "from 1 to 1: 7\nfrom 2 on: 9\n"
    );
    assert_eq!(
        folder.done(&["life", "s", "40", "--csv"], ""),
        "start,end,value\n1,2,7\n2,,9\n"
    );
    assert_eq!(folder.done(&["life", "s", "99"], ""), "");
    let said = folder.run(&["diff", "s", "1", "2"]);
    assert_eq!(
        (said.status, &said.out[..], &said.err[..]),
        (1, "changed 40 7 9\n", "")
    );
    let said = folder.run(&["diff", "s", "@2", "@0"]);
    assert_eq!(
        (said.status, &said.out[..]),
        (1, "removed 40 9\nremoved 41 300\n")
    );
    let said = folder.run(&["diff", "s", "0", "1", "--csv"]);
    assert_eq!(said.out, "change,key,old,new\nadded,40,,7\nadded,41,,300\n");
    assert_eq!(folder.done(&["diff", "s", "2", "2"], ""), "");
}

#[test]
fn a_difference_stays_byte_for_byte() {
    let folder = two_releases();
    let before = folder.run(&["diff", "s", "0", "2"]);
    folder.done(&["apply", "s"], "unset 40\nset 50 1\n");
    let many: String = (100..400).map(|key| format!("set {key} {key}\n")).collect();
    folder.done(&["apply", "s"], &many);
    folder.done(&["return", "s", "1"], "");
    assert_eq!(folder.run(&["diff", "s", "0", "2"]), before);
}

#[test]
fn apply_is_one_release() {
    let folder = two_releases();
    let said = folder.done(&["apply", "s"], "unset 41\nset 40 9\nset 39 4294967295\n");
    assert_eq!(said, "version 3\n");
    let said = folder.run(&["diff", "s", "2", "3"]);
    assert_eq!(said.out, "added 39 4294967295\nremoved 41 300\n");
    let before = folder.bytes("s");
    let dry = folder.done(&["apply", "s", "--dry-run"], "set 40 1\nunset 39\n");
    assert_eq!(dry, "removed 39 4294967295\nchanged 40 9 1\n");
    assert_eq!(folder.bytes("s"), before);
}

#[test]
fn returning_is_a_release() {
    let folder = two_releases();
    assert_eq!(
        folder.done(&["return", "s", "1", "--dry-run"], ""),
        "changed 40 9 7\n"
    );
    assert_eq!(
        folder.done(&["return", "s", "1"], ""),
        "changed 40 9 7\nversion 3\n"
    );
    assert_eq!(
        folder.done(&["list", "s"], ""),
        folder.done(&["list", "s", "@1"], "")
    );
    assert_eq!(folder.done(&["get", "s", "40@2"], ""), "9\n");
}

#[test]
fn abandon_ends_what_was_left_open() {
    let folder = two_releases();
    let before = folder.bytes("s");
    let mut open = before.clone();
    assert_eq!(reference::calls::open(&mut open), 0);
    assert_eq!(reference::calls::insert(&mut open, 7, 8), 0);
    folder.put("s", open);
    let info = folder.done(&["info", "s"], "");
    assert!(
        info.contains("an update is open: version 3, not yet a release\n"),
        "{info}"
    );
    assert_eq!(folder.done(&["get", "s", "7"], ""), "absent\n");
    assert_eq!(folder.done(&["get", "s", "7@3"], ""), "8\n");
    folder.refused(&["apply", "s"], "set 1 1\n", 8, "'rcst abandon' ends it");
    folder.done(&["abandon", "s"], "");
    assert_eq!(folder.bytes("s"), before);
}

#[test]
fn every_number_is_explained() {
    let folder = Folder::new();
    let readme = std::fs::read_to_string(tool::root().join("README.md")).expect("README");
    for number in 0..=17 {
        let said = folder.done(&["explain", &number.to_string()], "");
        let row = readme
            .lines()
            .find(|line| line.starts_with(&format!("| {number} |")));
        let words = row
            .expect("a row")
            .trim_end_matches(" |")
            .split(" | ")
            .nth(1)
            .expect("words");
        assert!(said.starts_with(&format!("{number}: {words}\n")), "{said}");
        assert!(
            said.lines()
                .nth(1)
                .is_some_and(|advice| advice.ends_with('.')),
            "{said}"
        );
    }
    for number in [64, 65, 66, 74] {
        folder.done(&["explain", &number.to_string()], "");
    }
    folder.refused(&["explain", "99"], "", 64, "99: no number");
}

#[test]
fn help_and_the_manual_name_every_command() {
    let folder = Folder::new();
    let all = folder.done(&["--help"], "");
    let manual = std::fs::read_to_string(tool::root().join("tools/rcst/rcst.1")).expect("a manual");
    let commands = all.lines().filter_map(|line| line.strip_prefix("  rcst "));
    let mut count = 0;
    for usage in commands {
        let name = usage.split(' ').next().expect("a name");
        let one = folder.done(&[name, "--help"], "");
        assert!(one.starts_with(&format!("rcst {usage}\n")), "{one}");
        assert!(
            manual.contains(&format!(".B {name}\n")) || manual.contains(&format!(".BI \"{name} ")),
            "{name}"
        );
        count += 1;
    }
    assert_eq!(count, 18);
    assert!(folder.done(&["--version"], "").starts_with("rcst "));
}

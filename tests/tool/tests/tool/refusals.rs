//! Each thing that can go wrong: a sentence, a status, and files as they were.

use std::fs;
use std::os::unix::fs::PermissionsExt;

use tool::Folder;

const READERS: [&[&str]; 9] = [
    &["info", "F"],
    &["log", "F"],
    &["get", "F", "1"],
    &["list", "F"],
    &["diff", "F", "0", "0"],
    &["life", "F", "1"],
    &["dump", "F"],
    &["draw", "F"],
    &["draw", "F", "--tree"],
];
const WRITERS: [&[&str]; 3] = [&["apply", "F"], &["return", "F", "0"], &["abandon", "F"]];

/// Runs each command on a file of this name.
fn each(folder: &Folder, name: &str, commands: &[&[&str]], status: i32, sentence: &str) {
    for words in commands {
        let words: Vec<&str> = words
            .iter()
            .map(|word| if *word == "F" { name } else { word })
            .collect();
        let status = match (words[0], status) {
            ("diff", 1) => 65,
            _ => status,
        };
        folder.refused(&words, "set 1 1\n", status, sentence);
    }
}

fn all() -> Vec<&'static [&'static str]> {
    READERS.into_iter().chain(WRITERS).collect()
}

#[test]
fn nothing_to_read() {
    let folder = Folder::new();
    each(&folder, "none", &all(), 66, "none: no such file");
    fs::create_dir(folder.path("folder")).expect("a folder");
    each(&folder, "folder", &all(), 66, "folder: is a folder");
    let said = folder.run(&["check", "none"]);
    assert_eq!((said.status, &said.out[..]), (66, ""));
    assert!(said.err.contains("no such file"));
}

#[test]
fn a_file_of_wrong_length() {
    let folder = Folder::new();
    for (name, bytes) in [
        ("empty", 0),
        ("cut", 1000),
        ("small", 1280),
        ("long", 4097 * 256),
        ("huge", 5_000_000),
    ] {
        let mut cut = vec![0; 6 * 256];
        reference::store::write_fresh(&reference::edition::FIRST, &mut cut);
        cut.resize(bytes, 0);
        folder.put(name, cut);
        each(
            &folder,
            name,
            &all(),
            1,
            "1, length not 6 to 4,096 whole pages of the edition",
        );
        assert_eq!(folder.run(&["check", name]).status, 1, "{name}");
    }
}

#[test]
fn bytes_that_are_no_store() {
    let folder = Folder::new();
    folder.done(&["new", "s", "6"], "");
    let store = folder.bytes("s");
    for (place, status, sentence) in [
        (0, 2, "first four bytes wrong"),
        (4, 3, "edition neither 1 nor 2"),
        (200, 4, "not sound"),
    ] {
        let mut bytes = store.clone();
        bytes[place] ^= 0x40;
        folder.put("s", bytes);
        each(&folder, "s", &all(), status, sentence);
        let said = folder.run(&["check", "s"]);
        assert_eq!(said.status, status);
        assert!(
            said.out.starts_with(&format!("s: {status}, ")),
            "{}",
            said.out
        );
    }
}

#[test]
fn the_stores_numbers() {
    let folder = Folder::new();
    folder.refused(&["new", "s", "5"], "", 1, "5 pages: 1, length");
    folder.refused(&["new", "s", "4097"], "", 1, "4097 pages: 1, length");
    folder.refused(&["new", "s", "4294967295"], "", 1, "1, length");
    folder.done(&["new", "s", "6"], "");
    folder.done(&["apply", "s"], "set 40 7\n");
    folder.refused(&["get", "s", "16777216"], "", 5, "5, key too large");
    folder.refused(&["list", "s", "9", "8"], "", 5, "range low above high");
    folder.refused(&["get", "s", "40@2"], "", 6, "6, version above last");
    folder.refused(&["diff", "s", "0", "2"], "", 6, "6, version above last");
    folder.refused(&["return", "s", "2"], "", 6, "6, version above last");
    folder.refused(
        &["draw", "s", "--tree", "@2"],
        "",
        6,
        "6, version above last",
    );
    folder.refused(&["abandon", "s"], "", 7, "7, no update open");
    folder.refused(
        &["apply", "s"],
        "set 1 1\nset 16776960 1\n",
        5,
        "line 2: set 16776960 1: 5",
    );
    folder.refused(
        &["apply", "s"],
        "set 1 1\nunset 2\n",
        11,
        "line 2: unset 2: 11",
    );
    folder.refused(&["apply", "s"], "set 40 7\n", 15, "commit: 15");
    folder.refused(&["apply", "s"], "", 15, "commit: 15");
    folder.refused(&["return", "s", "1"], "", 15, "commit: 15");
    let many: String = (0..30).map(|key| format!("set {key} 1\n")).collect();
    folder.refused(&["apply", "s"], &many, 12, "12, the rules need a page");
}

#[test]
fn what_is_no_command() {
    let folder = Folder::new();
    folder.refused(&[], "", 64, "no command is given");
    folder.refused(&["frob"], "", 64, "frob: no such command");
    folder.done(&["new", "s", "6"], "");
    let wrong: [(&[&str], &str); 9] = [
        (&["get", "s"], "usage: rcst get FILE KEY"),
        (&["get", "s", "x"], "x: not a number"),
        (&["get", "s", "1@"], "not a number"),
        (&["get", "s", "1", "2"], "2: one word too many"),
        (&["list", "s", "1"], "no HIGH is given"),
        (&["log", "s", "-n"], "-n: of what?"),
        (&["log", "s", "--frob"], "--frob: no such option"),
        (&["new", "t", "+6"], "+6: not a number"),
        (&["new", "t", "18446744073709551622"], "not a number"),
    ];
    for (words, sentence) in wrong {
        folder.refused(words, "", 64, sentence);
    }
    folder.refused(
        &["apply", "s"],
        "set 1 1\nfrob\n",
        65,
        "line 2: frob: neither",
    );
    folder.refused(&["apply", "s"], "set 1 x\n", 65, "line 1: x: not a number");
    folder.refused(&["load", "t"], "frob\n", 65, "line 1: frob");
}

#[test]
fn never_over_a_file() {
    let folder = Folder::new();
    folder.put("s", "a letter");
    folder.refused(&["new", "s", "6"], "", 74, "is there already");
    let dump = "rcst-dump 1\nedition 1\npages 6\nend 0\n";
    folder.refused(&["load", "s"], dump, 74, "is there already");
    std::os::unix::fs::symlink("nowhere", folder.path("link")).expect("a link");
    folder.refused(&["new", "link", "6"], "", 74, "is there already");
    folder.refused(&["new", "no/s", "6"], "", 74, "no such file");
}

#[test]
fn read_only_files_are_left_alone() {
    let folder = Folder::new();
    folder.done(&["new", "s", "6"], "");
    fs::set_permissions(folder.path("s"), fs::Permissions::from_mode(0o444)).expect("a mode");
    for words in WRITERS {
        let words: Vec<&str> = words
            .iter()
            .map(|word| if *word == "F" { "s" } else { word })
            .collect();
        let before = folder.bytes("s");
        let said = folder.run_with(&words, "set 1 1\n");
        assert_eq!(
            (said.status, folder.bytes("s") == before),
            (74, true),
            "{}",
            said.err
        );
        assert!(
            said.err.contains("read-only") || said.err.contains("permission denied"),
            "{}",
            said.err
        );
    }
    folder.done(&["list", "s"], "");
}

#[test]
fn a_file_keeps_its_mode_and_its_links() {
    let folder = Folder::new();
    folder.done(&["new", "s", "6"], "");
    fs::set_permissions(folder.path("s"), fs::Permissions::from_mode(0o640)).expect("a mode");
    std::os::unix::fs::symlink("s", folder.path("link")).expect("a link");
    folder.done(&["apply", "link"], "set 1 1\n");
    let mode = fs::metadata(folder.path("s"))
        .expect("a file")
        .permissions()
        .mode();
    assert_eq!(mode & 0o777, 0o640);
    assert!(folder.path("link").is_symlink());
    assert_eq!(folder.done(&["get", "s", "1"], ""), "1\n");
    assert_eq!(folder.names(), ["link", "s"]);
}

/// What a picture or a release must never be written over.
#[test]
fn other_files_are_left_alone() {
    let folder = Folder::new();
    folder.done(&["new", "s", "6"], "");
    std::os::unix::fs::symlink("s", folder.path("link")).expect("a link");
    for out in ["s", "link", "./s"] {
        folder.refused(&["draw", "s", "-o", out], "", 74, "is the store itself");
    }
    folder.put("letter", "a letter");
    std::os::unix::fs::symlink("letter", folder.path("s.rcst-new")).expect("a link");
    folder.refused(&["apply", "s"], "set 1 1\n", 74, "s.rcst-new: is a link");
    folder.refused(&["new", "t", "9999"], "", 1, "1, length");
    std::os::unix::fs::symlink("letter", folder.path("t.rcst-new")).expect("a link");
    folder.refused(&["new", "t", "6"], "", 74, "t.rcst-new: is a link");
}

#[test]
fn output_that_cannot_be_written() {
    let folder = Folder::new();
    folder.done(&["new", "s", "6"], "");
    folder.done(&["apply", "s"], "set 1 1\n");
    for command in [
        "info s",
        "log s",
        "list s",
        "get s 1",
        "diff s 0 1",
        "life s 1",
        "dump s",
        "draw s",
        "check s",
        "--help",
        "explain 4",
    ] {
        let said = folder.script(&format!("rcst {command} > /dev/full"));
        assert_eq!(said.status, 74, "{command}: {}", said.err);
        assert!(
            said.err.contains("standard output: no space left"),
            "{command}: {}",
            said.err
        );
    }
    folder.refused(&["draw", "s", "-o", "/dev/full"], "", 74, "no space left");
    folder.refused(&["draw", "s", "-o", "no/such.svg"], "", 74, "no such file");
}

/// On a disk of its own, if this machine lets us have one.
#[test]
fn a_full_or_read_only_disk() {
    let folder = Folder::new();
    let script = "mkdir disk && mount -t tmpfs -o size=32k none disk && cd disk && rcst new s 64 \
        && cp s ../before && cat /dev/zero > fill 2>/dev/null; \
        echo set 1 1 | rcst apply s; echo status $?; ls -A; rm -f fill; \
        mount -o remount,ro . ; echo set 1 1 | rcst apply s; echo status $?; cmp s ../before && echo same; rcst list s; echo status $?";
    let said = folder.script(&format!("unshare -m sh -c '{script}'"));
    if said.err.contains("unshare") || said.err.contains("mount:") {
        eprintln!("not tried, for want of a disk of its own: {}", said.err);
        return;
    }
    assert_eq!(
        said.out, "status 74\nfill\ns\nstatus 74\nsame\nstatus 0\n",
        "{}",
        said.err
    );
    assert!(
        said.err.contains("no space left on the disk"),
        "{}",
        said.err
    );
    assert!(said.err.contains("the disk is read-only"), "{}", said.err);
}

//! `rcst audit`: histories through the tree and the plain engine.

use reference::edition::{Edition, FIRST, SECOND};
use reference::engine::Call;
use reference::history::{calls_of, KINDS};
use tool::Folder;

/// A history and what is answered, line by line: where the two columns are not the
/// same, the plain engine has no pages.
const ANSWERED: &str = "\
1 | get 1 0 | refused 1 | left out
2 | store 6 | ok | ok
3 | open | ok | ok
4 | insert 40 7 | ok | ok
5 | insert 40 8 | refused 10 | refused 10
6 | insert 16776960 1 | refused 5 | refused 5
7 | insert 41 300 | ok | ok
8 | commit | ok | ok
9 | open | ok | ok
10 | delete 40 | ok | ok
11 | insert 40 9 | ok | ok
12 | commit | ok | ok
13 | get 40 1 | value 7 | value 7
14 | get 42 2 | absent | absent
15 | get 40 3 | refused 6 | refused 6
16 | range 0 16777215 1 | count 2: 40 7, 41 300 | count 2: 40 7, 41 300
17 | range 50 60 1 | count 0 | count 0
18 | diff 1 2 | count 1: 40 2 7 9 | count 1: 40 2 7 9
19 | life 40 | count 2: 1 2 7, 2 1048575 9 | count 2: 1 2 7, 2 1048575 9
20 | store 5 | refused 1 | left out
21 | open | ok | ok
22 | return 1 | ok | ok
23 | diff 2 3 | count 1: 40 2 9 7 | count 1: 40 2 9 7
24 | commit | ok | ok
25 | commit | refused 7 | refused 7
26 | open | ok | ok
27 | commit | refused 15 | refused 15
28 | abandon | ok | ok
";

/// The second fields of lines: a history.
fn history(answered: &str) -> String {
    let line = |line: &str| line.split(" | ").nth(1).expect("a call").to_string() + "\n";
    answered.lines().map(line).collect()
}

#[test]
fn side_by_side() {
    let folder = Folder::new();
    let due = format!("{ANSWERED}28 calls, 2 left out: equal\n");
    assert_eq!(folder.done(&["audit"], &history(ANSWERED)), due);
    folder.put("h", history(ANSWERED));
    assert_eq!(folder.done(&["audit", "h"], ""), due);
    assert_eq!(folder.done(&["audit", "h", "--edition", "2"], ""), due);
    assert_eq!(folder.names(), ["h"]);
    let wider = folder.done(&["audit", "h", "--pages", "64"], "");
    assert!(wider.starts_with("1 | get 1 0 | absent | absent\n"));
    assert!(wider.ends_with("28 calls, 0 left out: equal\n"), "{wider}");
    let said = "# a remark\n\n  open  \nlife 7\n";
    let json = folder.done(&["audit", "--pages", "6", "--json"], said);
    assert_eq!(
        json,
        "[\n{\"line\":3,\"call\":\"open\",\"tree\":\"ok\",\"plain\":\"ok\"},\n\
         {\"line\":4,\"call\":\"life 7\",\"tree\":\"count 0\",\"plain\":\"count 0\"}\n]\n"
    );
    let csv = folder.done(&["audit", "--csv"], "store 7\n");
    assert_eq!(csv, "line,call,tree,plain\n1,store 7,ok,ok\n");
    assert_eq!(folder.done(&["audit"], ""), "0 calls, 0 left out: equal\n");
}

/// A prune of either edition, and what is below it then.
#[test]
fn prunes() {
    let folder = Folder::new();
    let said = "store 8\nopen\ninsert 7 1\nprune 0\ncommit\nopen\ndelete 7\ninsert 7 2\ncommit\nprune 3\nprune 2\nget 7 1\nlife 7\n";
    let out = folder.done(&["audit", "--edition", "2"], said);
    let lines: Vec<&str> = out.lines().collect();
    assert_eq!(lines[3], "4 | prune 0 | refused 8 | refused 8");
    assert_eq!(
        lines[9..],
        [
            "10 | prune 3 | refused 6 | refused 6",
            "11 | prune 2 | ok | ok",
            "12 | get 7 1 | refused 6 | refused 6",
            "13 | life 7 | count 1: 2 1048575 2 | count 1: 2 1048575 2",
            "13 calls, 0 left out: equal",
        ]
    );
    let first = folder.done(&["audit"], said);
    assert!(first
        .contains("\n11 | prune 2 | refused 3 | refused 3\n12 | get 7 1 | value 1 | value 1\n"));
}

/// One page for settings: the insert that wants a second is left out, and a return
/// that does is an abandon.
#[test]
fn where_the_tree_has_no_page() {
    let folder = Folder::new();
    let mut said = String::from("store 6\nopen\n");
    said.extend((1..=16).map(|key| format!("insert {key} {key}\n")));
    said += "commit\nopen\ndelete 1\ndelete 2\ninsert 17 1\ninsert 18 2\ninsert 19 3\n";
    said += "commit\nopen\ninsert 30 1\ninsert 31 1\nget 30 3\nreturn 1\nget 30 3\nabandon\n";
    said += "range 0 16777215 2\n";
    let out = folder.done(&["audit"], &said);
    let lines: Vec<&str> = out.lines().skip(26).collect();
    assert_eq!(
        lines[..7],
        [
            "27 | open | ok | ok",
            "28 | insert 30 1 | ok | ok",
            "29 | insert 31 1 | refused 12 | left out",
            "30 | get 30 3 | value 1 | value 1",
            "31 | return 1 | refused 12 | abandon: ok",
            "32 | get 30 3 | refused 6 | refused 6",
            "33 | abandon | refused 7 | refused 7",
        ]
    );
    assert_eq!(lines[8], "34 calls, 1 left out: equal");
}

/// The line of a call, if there is one.
fn line(call: Call, pages: usize) -> Option<String> {
    Some(match call {
        Call::Fresh | Call::FreshSecond => format!("store {pages}"),
        Call::Open => "open".into(),
        Call::Insert(key, value) => format!("insert {key} {value}"),
        Call::Delete(key) => format!("delete {key}"),
        Call::Commit => "commit".into(),
        Call::Abandon => "abandon".into(),
        Call::Return(version) => format!("return {version}"),
        Call::Prune(version) => format!("prune {version}"),
        Call::Lookup(key, version) => format!("get {key} {version}"),
        Call::Range(low, high, version, _) => format!("range {low} {high} {version}"),
        Call::Difference(old, new, _) => format!("diff {old} {new}"),
        Call::Life(key, _) => format!("life {key}"),
        Call::Check | Call::State | Call::Visits(..) => return None,
    })
}

#[test]
fn histories_from_seeds() {
    let folder = Folder::new();
    let editions: [&'static Edition; 2] = [&FIRST, &SECOND];
    for seed in 0..16 {
        let (edition, pages) = (editions[seed as usize % 2], 6 + 5 * seed as usize);
        let kind = KINDS[seed as usize / 2 % 4];
        let (calls, _) = calls_of(edition, seed, kind, pages, 400);
        let said: Vec<String> = calls.iter().filter_map(|call| line(*call, pages)).collect();
        let number = edition.number.to_string();
        let out = folder.done(&["audit", "--edition", &number], &said.join("\n"));
        assert_eq!(out.lines().count(), said.len() + 1, "seed {seed}");
        assert!(out.ends_with(" left out: equal\n"), "seed {seed}");
    }
}

#[test]
fn what_is_no_history() {
    let folder = Folder::new();
    folder.refused(&["audit"], "store 6\nopen\ncheck\n", 65, "line 3: check");
    folder.refused(&["audit"], "insert 1\n", 65, "line 1: insert 1");
    folder.refused(&["audit"], "get 4294967296 1", 65, "line 1");
    folder.refused(&["audit", "h"], "", 66, "h: no such file");
    folder.refused(&["audit", "h", "i"], "", 64, "i: one word too many");
    folder.refused(&["audit", "--edition", "3"], "", 3, "edition 3");
    folder.refused(&["audit", "--pages", "5"], "", 65, "5 pages: 1");
}

//! Settings by name.

use tool::Folder;

const SETTINGS: &str = "# key, name, kind, lowest, highest, unit\n\
    40  tube-current     whole   1     100    mA\n\
    41  shutter          switch\n\
    42  filter.softness  level   0.0   1.5\n";

fn named() -> Folder {
    let folder = Folder::new();
    folder.put("n", SETTINGS);
    folder.done(&["new", "s", "16"], "");
    let changes = "set tube-current 80\nset shutter on\nset filter.softness 0.35\n";
    folder.done(&["apply", "s", "--names", "n"], changes);
    folder
}

#[test]
fn people_read_names() {
    let folder = named();
    assert_eq!(
        folder.done(&["list", "s"], ""),
        "40 80\n41 1\n42 1051931443\n"
    );
    let said = folder.done(&["list", "s", "--names", "n"], "");
    assert_eq!(said, "tube-current 80\nshutter on\nfilter.softness 0.35\n");
    assert_eq!(
        folder.done(&["get", "s", "filter.softness@1", "--names", "n"], ""),
        "0.35\n"
    );
    assert_eq!(
        folder.done(&["get", "s", "42", "--names", "n"], ""),
        "0.35\n"
    );
    folder.done(
        &["apply", "s", "--names", "n"],
        "set shutter 0\nset 42 1.5\n",
    );
    let said = folder.run(&["diff", "s", "1", "2", "--names", "n"]);
    assert_eq!(
        said.out,
        "changed shutter on off\nchanged filter.softness 0.35 1.5\n"
    );
    let said = folder.done(&["life", "s", "shutter", "--names", "n"], "");
    assert_eq!(said, "from 1 to 1: on\nfrom 2 on: off\n");
    let said = folder.done(&["return", "s", "1", "--names", "n"], "");
    assert_eq!(
        said,
        "changed shutter off on\nchanged filter.softness 1.5 0.35\nversion 3\n"
    );
    let json = folder.done(&["list", "s", "--names", "n", "--json"], "");
    assert!(
        json.contains("{\"key\":\"filter.softness\",\"value\":0.35}"),
        "{json}"
    );
}

#[test]
fn an_unknown_key_is_refused() {
    let folder = named();
    let refused = |words: &[&str], input: &str, sentence: &str| {
        let words: Vec<&str> = words.iter().chain(&["--names", "n"]).copied().collect();
        folder.refused(&words, input, 17, sentence);
    };
    refused(&["get", "s", "softness"], "", "softness: 17, key unknown");
    refused(&["get", "s", "43"], "", "key 43: 17, key unknown");
    refused(&["apply", "s"], "set 43 1\n", "line 1: key 43: 17");
    refused(&["apply", "s"], "unset 43\n", "line 1: key 43: 17");
    folder.done(&["apply", "s"], "set 43 1\n");
    refused(&["list", "s"], "", "key 43: 17, key unknown");
    refused(&["diff", "s", "1", "2"], "", "key 43: 17, key unknown");
    refused(&["return", "s", "1"], "", "key 43: 17, key unknown");
    let said = folder.done(&["list", "s", "@1", "--names", "n"], "");
    assert!(said.starts_with("tube-current"), "{said}");
}

#[test]
fn a_value_is_of_its_kind() {
    let folder = named();
    for line in [
        "set 40 0",
        "set 40 101",
        "set 41 2",
        "set 42 1.6",
        "set 42 -0.1",
        "set 42 NaN",
        "set 42 inf",
    ] {
        let sentence = format!("line 1: {line}: 16, value not of the key's kind");
        folder.refused(
            &["apply", "s", "--names", "n"],
            &format!("{line}\n"),
            16,
            &sentence,
        );
    }
    for line in [
        "set 40 1",
        "set 40 100",
        "set 41 0",
        "set 42 -0.0",
        "set 42 1.5",
    ] {
        folder.done(&["apply", "s", "--names", "n"], &format!("{line}\n"));
    }
}

#[test]
fn a_file_that_names_nothing() {
    let folder = named();
    folder.refused(
        &["list", "s", "--names", "none"],
        "",
        66,
        "none: no such file",
    );
    let wrong = [
        ("40", "line 1: no key, name and kind"),
        ("x y switch", "line 1: a number that is none"),
        ("1 y switch\n1 z switch", "line 2: a key that is too large"),
        ("1 y switch\n2 y switch", "line 2: a name twice"),
        ("16777216 y switch", "line 1: a key that is too large"),
        (
            "1 y whole 3 2",
            "line 1: a key that is too large or does not rise, or limits",
        ),
        (
            "1 y level 0 NaN",
            "line 1: a key that is too large or does not rise, or limits",
        ),
        ("1 y whole", "line 1: no limits"),
        ("1 y frob", "line 1: a kind that is none"),
        ("1 2 switch", "line 1: a name that is a number"),
        ("1 y switch mA more", "line 1: words behind the unit"),
    ];
    for (text, sentence) in wrong {
        folder.put("wrong", text);
        folder.refused(&["list", "s", "--names", "wrong"], "", 65, sentence);
    }
}

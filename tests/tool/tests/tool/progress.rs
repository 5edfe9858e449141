//! Long work says on a terminal how far it is, and says nothing in a pipe. A
//! terminal is had by `script`, where there is one.

use std::fmt::Write;

use tool::Folder;

/// What a command writes on a terminal, its input from a file, or nothing where
/// this machine has no `script`. It is asked to say each step: a quick machine may
/// be through before it would say one.
fn on_a_terminal(folder: &Folder, command: &str) -> Option<String> {
    let said = folder.script(&format!(
        "RCST_PROGRESS=0 script -qec '{command}' /dev/null"
    ));
    if said.status == 127 {
        eprintln!("not tried, for want of a terminal: {}", said.err);
        return None;
    }
    assert_eq!(said.status, 0, "{command}: {}", said.out);
    Some(said.out)
}

/// A store so large that a release of these lines takes a while.
fn large() -> Folder {
    let folder = Folder::new();
    folder.done(&["new", "s", "4096"], "");
    let mut changes = String::new();
    for key in 0..1500 {
        writeln!(changes, "set {} {key}", 7 * key).expect("a text");
    }
    folder.put("changes", &changes);
    folder
}

/// The line is written over as the work goes on, from some of so many to more of them,
/// and is gone at its end.
fn shows(said: &str, words: &str, many: usize) {
    let before = format!("\r{words}: ");
    let told: Vec<usize> = said
        .split(&before)
        .skip(1)
        .map(|line| {
            let (done, rest) = line.split_once(" of ").expect("how far it is");
            let of = rest.split('\r').next().unwrap_or(rest);
            assert_eq!(of, many.to_string(), "{said:?}");
            done.parse().expect("a number")
        })
        .collect();
    assert!(told.first().is_some_and(|done| *done > 0), "{said:?}");
    assert!(told.windows(2).all(|two| two[0] < two[1]), "{said:?}");
    assert!(told.last().is_some_and(|done| *done <= many), "{said:?}");
    let (_, behind) = said.rsplit_once(words).expect("it is there");
    assert!(behind.contains("\r\x1b[K"), "{said:?}");
}

#[test]
fn releases_and_dumps() {
    let folder = large();
    let changes = String::from_utf8(folder.bytes("changes")).expect("text");
    // `done` asks that nothing is written but the outcome
    folder.put("t", folder.bytes("s"));
    assert_eq!(folder.done(&["apply", "t"], &changes), "version 1\n");
    let Some(said) = on_a_terminal(&folder, "rcst apply s < changes") else {
        return;
    };
    shows(&said, "lines", 1500);
    assert!(said.ends_with("version 1\r\n"), "{said:?}");
    assert_eq!(folder.bytes("s"), folder.bytes("t"));
    let dump = folder.done(&["dump", "s"], "");
    folder.put("dump", &dump);
    folder.done(&["load", "u"], &dump);
    shows(
        &on_a_terminal(&folder, "rcst load v < dump").expect("a terminal"),
        "lines",
        dump.lines().count(),
    );
    assert_eq!(folder.bytes("u"), folder.bytes("v"));
}

#[test]
fn a_check_of_many_files() {
    let folder = large();
    let changes = String::from_utf8(folder.bytes("changes")).expect("text");
    folder.done(&["apply", "s"], &changes);
    let many = vec!["s"; 700];
    let words: Vec<&str> = ["check"].into_iter().chain(many).collect();
    let in_a_pipe = folder.done(&words, "");
    assert_eq!(in_a_pipe, "s: sound\n".repeat(700));
    if let Some(said) = on_a_terminal(&folder, &format!("rcst {} > out", words.join(" "))) {
        shows(&said, "checked", 700);
        assert_eq!(folder.bytes("out"), in_a_pipe.as_bytes());
    }
}

#[test]
fn a_conversion() {
    let folder = Folder::new();
    folder.done(&["new", "s", "6"], "");
    assert_eq!(folder.done(&["convert", "s", "t", "6"], ""), "");
    if let Some(said) = on_a_terminal(&folder, "rcst convert s u 6") {
        assert!(said.contains("this may take a while"), "{said:?}");
        assert_eq!(folder.bytes("t"), folder.bytes("u"));
    }
}

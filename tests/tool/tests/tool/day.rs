//! README's "A day with rcst", line by line, and its picture.

use std::fs;

use tool::{root, Folder};

/// The commands of the section, each with what stands below it.
fn day(readme: &str) -> Vec<(String, String)> {
    let section = readme
        .split("\n## A day with rcst\n")
        .nth(1)
        .expect("the section");
    let section = section.split("\n## ").next().expect("its end");
    let lines = section.lines().filter_map(|line| line.strip_prefix("    "));
    let mut day: Vec<(String, String)> = Vec::new();
    for line in lines {
        match (line.strip_prefix("$ "), day.last_mut()) {
            (Some(command), _) => day.push((command.into(), String::new())),
            (None, Some((_, said))) => *said += &format!("{line}\n"),
            (None, None) => panic!("{line}: below no command"),
        }
    }
    day
}

#[test]
fn as_readme_has_it() {
    let readme = fs::read_to_string(root().join("README.md")).expect("README");
    let folder = Folder::new();
    let settings = fs::read(root().join("examples/settings.txt")).expect("the names");
    folder.put("settings.txt", settings);
    let day = day(&readme);
    assert!(day.len() >= 10, "{}", day.len());
    for (command, said) in day {
        let found = folder.script(&format!("{{ {command}\n}} 2>&1"));
        assert_eq!(found.out, said, "{command}");
    }
}

#[test]
fn the_picture_is_the_stores() {
    let folder = Folder::new();
    let year = fs::read_to_string(root().join("examples/year.txt")).expect("a dump");
    folder.done(&["load", "year"], &year);
    assert_eq!(folder.done(&["dump", "year"], ""), year);
    let svg = fs::read_to_string(root().join("docs/store.svg")).expect("a picture");
    assert!(
        folder.done(&["draw", "year"], "") == svg,
        "docs/store.svg: rcst draw draws another"
    );
}

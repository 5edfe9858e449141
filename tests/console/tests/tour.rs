//! README's tour, typed into the console: it answers as the table says.

use std::fs;
use std::path::Path;

/// What stands in backticks in a cell.
fn said(cell: &str) -> Vec<&str> {
    cell.split('`').skip(1).step_by(2).collect()
}

#[test]
fn as_readme_has_it() {
    let path = Path::new(env!("CARGO_MANIFEST_DIR")).join("../../README.md");
    let readme = fs::read_to_string(path).expect("README");
    let tour = readme
        .split("\n## A tour for the one who runs it\n")
        .nth(1)
        .expect("the tour");
    let tour = tour.split("\n## ").next().expect("its end");
    let (mut input, mut due) = (String::new(), String::new());
    for row in tour.lines().filter(|line| line.starts_with("| `")) {
        let cells: Vec<&str> = row.split(" | ").collect();
        input += &format!("{}\n", said(cells[0])[0]);
        for answer in said(cells[1]) {
            due += &format!("{answer}\n");
        }
    }
    assert!(input.lines().count() > 20, "{input}");
    let found = console::answers(input.as_bytes());
    assert_eq!(String::from_utf8(found).expect("text"), due);
}

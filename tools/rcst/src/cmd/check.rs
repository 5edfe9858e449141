//! Sound, or the number, the rule in words, and where.

use std::path::Path;

use super::Command;
use crate::fault::Fault;
use crate::file;
use crate::line::Line;
use crate::place;
use crate::progress::Progress;
use crate::rows::{Cell, Rows};

pub const COMMAND: Command = Command {
    name: "check",
    usage: "check FILE.. [--json | --csv]",
    does: "sound, or the number, the rule in words, and where",
    more: "A line for each file. The number and the rule are the library's word; the place is found by plain\ncode, which says so where it cannot tell. Exit status: 0 if all are sound, else the first file's that\nis not.",
    run,
};

fn run(mut line: Line) -> Result<u8, Fault> {
    let mut status = 0;
    let many = line.left();
    let mut progress = Progress::of("checked");
    let mut rows = Rows::new(line.form, &["file", "number", "rule", "words"])?;
    for done in 0..many.max(1) {
        let path = line.file()?;
        let given = checked(&path, &mut rows)?;
        if status == 0 {
            status = given;
        }
        progress.step(done + 1, many);
    }
    rows.end()?;
    Ok(status)
}

/// Says what a file is, and gives its status: of one that cannot be read too, so
/// that the others are checked.
fn checked(path: &Path, rows: &mut Rows) -> Result<u8, Fault> {
    let name = path.display().to_string();
    let (number, rule, words) = match file::read(path) {
        Err(fault) => {
            eprintln!("rcst: {}", fault.words);
            return Ok(fault.status);
        }
        Ok(bytes) => judged(&bytes),
    };
    let cells = [
        Cell::Text(name.clone()),
        Cell::number(number),
        Cell::number(rule),
        Cell::Text(words.clone()),
    ];
    rows.row(&format!("{name}: {words}"), &cells)?;
    Ok(number as u8)
}

fn judged(bytes: &[u8]) -> (u32, u32, String) {
    let (number, rule) = rcst::check(bytes);
    let words = rcst::number::words(number).unwrap_or("not a number of this library");
    let words = match number {
        0 => "sound".into(),
        1 => format!("1, {words} ({} bytes)", bytes.len()),
        4 => format!(
            "4, not sound: rule {rule}, {}\n    {}",
            place::rule(rule),
            place::of(bytes, rule)
        ),
        _ => format!("{number}, {words}"),
    };
    (number, rule, words)
}

//! A history through the tree and through the plain engine, answer by answer.

use std::fs;
use std::path::PathBuf;

use rcst::number::WRONG_EDITION;

use super::Command;
use crate::beside::{Beside, Both};
use crate::fault::{told, Fault};
use crate::history::{self, Said};
use crate::line::{Form, Line};
use crate::rows::{Cell, Rows};
use crate::standard;

pub const COMMAND: Command = Command {
    name: "audit",
    usage: "audit [HISTORY] [--edition 2] [--pages N] [--json | --csv]",
    does: "a history through the tree and the plain engine, the two answers side by side",
    more: "HISTORY, or standard input, has a call a line: the console's lines (store N, open, insert K V, delete K,\ncommit, abandon, get K V, range LOW HIGH V), and life K, diff A B, return V, prune V. An empty line, or one\nthat begins with #, says nothing. A line of the answer: the line's number, the call, what the tree answers, what\nthe plain engine does. A call to which the tree gives 12 or 13 (or 1, before any store) is left out there, and a\nreturn that ends in 12 or 13 is an abandon. --pages N: every store has N pages, and the history needs no\nline 'store'. No store file is read or written. Exit status: 0 if all answers are equal; 1 at the first that\nis not, which ends the audit.",
    run,
};

fn run(mut line: Line) -> Result<u8, Fault> {
    let path = match line.left() {
        0 => None,
        _ => Some(line.file()?),
    };
    line.end()?;
    let history = history::of(&text_of(path)?)?;
    let both = lent(&line).map_err(Fault::kept_from_one)?;
    let left_out = compare(&history, both, line.form)?;
    if line.form == Form::Plain {
        let calls = history.len();
        standard::output(&format!("{calls} calls, {left_out} left out: equal\n"))?;
    }
    Ok(0)
}

fn lent(line: &Line) -> Result<Both, Fault> {
    let edition = line.edition.unwrap_or(1);
    match edition {
        1 | 2 => Both::new(edition, line.pages),
        _ => Err(Fault::number(format!("edition {edition}"), WRONG_EDITION)),
    }
}

/// Every call with its two answers, up to the first two that are not equal. How many
/// calls were left out of the plain sequence.
fn compare(history: &[Said], mut both: Both, form: Form) -> Result<usize, Fault> {
    let mut rows = Rows::new(form, &["line", "call", "tree", "plain"])?;
    let mut left_out = 0;
    for Said { line, text, call } in history {
        let (tree, plain) = both.call(*call);
        let cells = [
            Cell::number(line),
            Cell::Text(text.clone()),
            Cell::Text(tree.to_string()),
            Cell::Text(plain.to_string()),
        ];
        rows.row(&format!("{line} | {text} | {tree} | {plain}"), &cells)?;
        if !plain.is_right(&tree) {
            rows.end()?;
            return Err(Fault::unequal(format!(
                "line {line}: {text}: the tree gives '{tree}', the plain engine '{plain}'"
            )));
        }
        left_out += usize::from(plain == Beside::LeftOut);
    }
    rows.end()?;
    Ok(left_out)
}

fn text_of(path: Option<PathBuf>) -> Result<String, Fault> {
    let Some(path) = path else {
        return standard::input();
    };
    fs::read_to_string(&path).map_err(|error| Fault::no_input(&path, told(&error)))
}

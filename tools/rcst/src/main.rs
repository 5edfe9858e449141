//! Stores of settings in files, for who looks after them.
//!
//! What a store says, and whether it may be changed, the proved library decides.
//! This program reads files and writes them (`file`), makes releases on a copy in
//! memory (`release`), runs histories through the library's two engines (`beside`),
//! and shows answers. It has rules of its own in two places only, which read the
//! bytes as docs/FORMAT.md has them (`plain`): where a store is wrong (`place`), and
//! its picture (`picture`).

mod beside;
mod change;
mod cmd;
mod fault;
mod file;
mod fresh;
mod history;
mod line;
mod names;
mod passed;
mod picture;
mod place;
mod plain;
mod progress;
mod release;
mod rows;
mod standard;
mod state;
mod store;

use std::env;
use std::process::ExitCode;

use fault::Fault;
use line::Line;

fn main() -> ExitCode {
    match run() {
        Ok(status) => ExitCode::from(status),
        Err(fault) => {
            if !fault.words.is_empty() {
                eprintln!("rcst: {}", fault.words);
            }
            ExitCode::from(fault.status)
        }
    }
}

fn run() -> Result<u8, Fault> {
    let mut words = env::args_os().skip(1);
    let word = words.next().unwrap_or_default();
    let word = word.to_str().unwrap_or("?");
    match word {
        "--help" | "-h" | "help" => return cmd::help::all(),
        "--version" => return cmd::help::version(),
        "" => {
            return Err(Fault::usage(
                "no command is given; 'rcst --help' lists them",
            ))
        }
        _ => {}
    }
    let Some(command) = cmd::ALL.iter().find(|command| command.name == word) else {
        return Err(Fault::usage(format!(
            "{word}: no such command; 'rcst --help' lists them"
        )));
    };
    let line = Line::of(words)?;
    if line.help {
        return cmd::help::one(command);
    }
    (command.run)(line).map_err(|fault| match fault.status {
        64 => fault.but(format!("usage: rcst {}", command.usage)),
        _ => fault,
    })
}

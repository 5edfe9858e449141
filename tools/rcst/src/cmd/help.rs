//! What each command does, on standard output.

use rcst::limits::{LIBRARY_MAJOR, LIBRARY_MINOR};

use super::{Command, ALL};
use crate::fault::Fault;
use crate::standard;

fn put(text: &str) -> Result<u8, Fault> {
    standard::output(text).map(|()| 0)
}

pub fn all() -> Result<u8, Fault> {
    let mut text = String::from("rcst: stores of settings in files, every release kept\n\n");
    for command in ALL {
        text += &format!("  rcst {}\n      {}\n", command.usage, command.does);
    }
    text += "\n'rcst COMMAND --help' says more. Exit status: 0 done; 1 to 17 the store's number, in words by\n'rcst explain N'; 64 usage, 65 a text that says nothing, 66 no input, 74 input or output.\n";
    put(&text)
}

pub fn one(command: &Command) -> Result<u8, Fault> {
    let Command {
        usage, does, more, ..
    } = command;
    put(&format!("rcst {usage}\n    {does}\n\n{more}\n"))
}

/// The version of the library that this program holds.
pub fn version() -> Result<u8, Fault> {
    put(&format!("rcst {LIBRARY_MAJOR}.{LIBRARY_MINOR}\n"))
}

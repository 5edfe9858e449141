//! A number in words, and what to do.

use super::Command;
use crate::fault::Fault;
use crate::line::Line;
use crate::standard;

pub const COMMAND: Command = Command {
    name: "explain",
    usage: "explain N",
    does: "a number in words, and what to do",
    more: "N is a number that the library gives, or an exit status of this program.",
    run,
};

fn run(mut line: Line) -> Result<u8, Fault> {
    let number = line.number("N")?;
    line.end()?;
    let Some((words, advice)) = told(number) else {
        return Err(Fault::usage(format!(
            "{number}: no number of the library or of this program"
        )));
    };
    standard::output(&format!("{number}: {words}\n{advice}\n"))?;
    Ok(0)
}

fn told(number: u32) -> Option<(&'static str, &'static str)> {
    let words = match number {
        64 => "the command line is no command's",
        65 => "a text that was given says nothing, or what cannot be",
        66 => "there is no such file, or it cannot be read",
        74 => "reading or writing failed",
        _ => rcst::number::words(number)?,
    };
    Some((words, ADVICE.iter().find(|(of, _)| *of == number)?.1))
}

const ADVICE: [(u32, &str); 22] = [
    (0, "Nothing is to be done."),
    (1, "The file is no store, or was cut or lengthened on its way. Take it from where it came, or from a copy."),
    (2, "The file is no store. Look at its name."),
    (3, "The store was made by a newer program, or is no store: use the program that made it. Or it is of edition 1, and is to be pruned: 'rcst convert' it first."),
    (4, "'rcst check' says which rule is broken, and where. Take a copy that is sound; a store that is not is never repaired."),
    (5, "Keys go up to 16,777,215; those from 16,776,960 on are the test bench's and cannot be set. A range goes from its low key to its high one."),
    (6, "'rcst info' says which version is current and which is the oldest. Ask for one of those from the oldest to the current one."),
    (7, "Nothing was open, so there was nothing to end. The store is as it was."),
    (8, "A program ended inside an update, or is in one now. If none is: 'rcst abandon'."),
    (9, "The versions are used up. Begin a new store."),
    (10, "The setting is there. To change it, end it and set it anew; 'set' of 'rcst apply' does both."),
    (11, "The setting is not there. Look at 'rcst list'; nothing of the release was kept."),
    (12, "The store is full for this change. In edition 2, if old versions may go, 'rcst prune' frees their pages. Or make a larger one: 'rcst convert' to edition 2, or 'rcst dump', then 'rcst load --pages N'."),
    (13, "The directory of roots is full: the root moved in 256 versions, in edition 2 in 512. There, if old versions may go, 'rcst prune' frees their roots. Or begin a new store from this one's settings."),
    (14, "A program lent a list that is too short. It is told how many numbers there are, and asks again."),
    (15, "The release would change nothing. The store is as it was, and there is nothing to release."),
    (16, "Look up the setting's kind and limits in the file of names. Nothing of the release was kept."),
    (17, "The file of names does not know this key. Use the one that belongs to this store: a setting is never skipped."),
    (64, "'rcst --help' lists the commands, 'rcst COMMAND --help' says what one takes."),
    (65, "Look at the line that is named."),
    (66, "Look at the name and at who may read it."),
    (74, "Look at the disk: is it full, read-only, or not there? The store is as it was."),
];

//! Why a command ends: a sentence for standard error, and an exit status.

use std::fmt::Display;
use std::io;
use std::path::Path;

/// The exit statuses that are no number of the store, as sysexits.h has them.
const USAGE: u8 = 64;
const DATA: u8 = 65;
const NO_INPUT: u8 = 66;
const INPUT_OUTPUT: u8 = 74;

#[derive(Debug)]
pub struct Fault {
    pub status: u8,
    /// Empty where there is nobody to read it.
    pub words: String,
}

impl Fault {
    /// The command line is no command's.
    pub fn usage(words: impl Into<String>) -> Fault {
        Fault {
            status: USAGE,
            words: words.into(),
        }
    }

    /// A text that was given says nothing, or what cannot be.
    pub fn data(words: impl Into<String>) -> Fault {
        Fault {
            status: DATA,
            words: words.into(),
        }
    }

    /// Answers that are to be equal are not.
    pub fn unequal(words: impl Into<String>) -> Fault {
        Fault {
            status: 1,
            words: words.into(),
        }
    }

    /// There is nothing to read.
    pub fn no_input(path: &Path, words: impl Display) -> Fault {
        Fault {
            status: NO_INPUT,
            words: format!("{}: {words}", path.display()),
        }
    }

    /// Reading or writing failed.
    pub fn io(path: &Path, error: &io::Error) -> Fault {
        Fault::file(path, told(error))
    }

    pub fn file(path: &Path, words: impl Display) -> Fault {
        Fault {
            status: INPUT_OUTPUT,
            words: format!("{}: {words}", path.display()),
        }
    }

    /// Standard output went away: quietly where its reader had enough.
    pub fn output(error: &io::Error) -> Fault {
        let words = match error.kind() {
            io::ErrorKind::BrokenPipe => String::new(),
            _ => format!("standard output: {}", told(error)),
        };
        Fault {
            status: INPUT_OUTPUT,
            words,
        }
    }

    /// The library refused: its number, and its words.
    pub fn number(what: impl Display, number: u32) -> Fault {
        let words = rcst::number::words(number).unwrap_or("not a number of this library");
        Fault {
            status: number as u8,
            words: format!("{what}: {number}, {words}"),
        }
    }

    /// The same with the file in front.
    pub fn in_file(mut self, path: &Path) -> Fault {
        self.words = format!("{}: {}", path.display(), self.words);
        self
    }

    /// The same with something to do about it.
    pub fn but(mut self, advice: impl Display) -> Fault {
        self.words = format!("{}\n{advice}", self.words);
        self
    }

    /// `diff` keeps 1 for versions that differ and `audit` for answers that do, so a
    /// wrong length has another status there.
    pub fn kept_from_one(mut self) -> Fault {
        if self.status == 1 {
            self.status = DATA;
        }
        self
    }
}

/// An error of the system in words, without its number.
pub fn told(error: &io::Error) -> String {
    match error.kind() {
        io::ErrorKind::NotFound => "no such file or folder".into(),
        io::ErrorKind::PermissionDenied => "permission denied".into(),
        io::ErrorKind::StorageFull => "no space left on the disk".into(),
        io::ErrorKind::ReadOnlyFilesystem => "the disk is read-only".into(),
        io::ErrorKind::IsADirectory => "is a folder".into(),
        _ => error.to_string(),
    }
}

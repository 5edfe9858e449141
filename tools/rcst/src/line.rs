//! The words of a command line: what a command takes, and the options.

use std::ffi::OsString;
use std::path::PathBuf;

use crate::fault::Fault;

/// How answers are written.
#[derive(Clone, Copy, Debug, Default, PartialEq, Eq)]
pub enum Form {
    #[default]
    Plain,
    Json,
    Csv,
}

/// A command's words, options taken out.
#[derive(Debug, Default)]
pub struct Line {
    words: Vec<OsString>,
    pub form: Form,
    pub help: bool,
    pub dry: bool,
    pub tree: bool,
    pub names: Option<PathBuf>,
    pub output: Option<PathBuf>,
    pub most: Option<usize>,
    pub edition: Option<u32>,
    pub pages: Option<usize>,
}

impl Line {
    pub fn of(given: impl Iterator<Item = OsString>) -> Result<Line, Fault> {
        let mut line = Line::default();
        let mut given = given;
        while let Some(word) = given.next() {
            match word.to_str() {
                Some("--") => {
                    line.words.extend(given);
                    break;
                }
                Some(option) if option.starts_with('-') && option.len() > 1 => {
                    line.option(option, &mut given)?
                }
                _ => line.words.push(word),
            }
        }
        line.words.reverse();
        Ok(line)
    }

    fn option(
        &mut self,
        option: &str,
        rest: &mut impl Iterator<Item = OsString>,
    ) -> Result<(), Fault> {
        let mut value = || {
            rest.next()
                .ok_or(Fault::usage(format!("{option}: of what?")))
        };
        match option {
            "--help" | "-h" => self.help = true,
            "--json" => self.form = Form::Json,
            "--csv" => self.form = Form::Csv,
            "--dry-run" => self.dry = true,
            "--tree" => self.tree = true,
            "--names" => self.names = Some(value()?.into()),
            "-o" => self.output = Some(value()?.into()),
            "-n" => self.most = Some(whole(&value()?)? as usize),
            "--edition" => self.edition = Some(whole(&value()?)?),
            "--pages" => self.pages = Some(whole(&value()?)? as usize),
            _ => return Err(Fault::usage(format!("{option}: no such option"))),
        }
        Ok(())
    }

    /// How many words are left.
    pub fn left(&self) -> usize {
        self.words.len()
    }

    pub fn next(&mut self, what: &str) -> Result<OsString, Fault> {
        let none = || Fault::usage(format!("no {what} is given"));
        self.words.pop().ok_or_else(none)
    }

    pub fn file(&mut self) -> Result<PathBuf, Fault> {
        Ok(self.next("FILE")?.into())
    }

    /// One file, and nothing behind it.
    pub fn only_file(&mut self) -> Result<PathBuf, Fault> {
        let path = self.file()?;
        self.end()?;
        Ok(path)
    }

    /// A file, one word more, and nothing behind it.
    pub fn file_and<T>(
        &mut self,
        next: fn(&mut Line, &str) -> Result<T, Fault>,
        what: &str,
    ) -> Result<(PathBuf, T), Fault> {
        let path = self.file()?;
        let word = next(self, what)?;
        self.end()?;
        Ok((path, word))
    }

    pub fn text(&mut self, what: &str) -> Result<String, Fault> {
        let wrong = |word: OsString| Fault::usage(format!("{}: not text", word.display()));
        self.next(what)?.into_string().map_err(wrong)
    }

    pub fn number(&mut self, what: &str) -> Result<u32, Fault> {
        whole(&self.next(what)?)
    }

    /// A version, with `@` in front or without.
    pub fn version(&mut self, what: &str) -> Result<u32, Fault> {
        let word = self.text(what)?;
        number(word.strip_prefix('@').unwrap_or(&word))
    }

    /// A version if the next word is one with `@` in front.
    pub fn at(&mut self) -> Result<Option<u32>, Fault> {
        match self.words.last().and_then(|word| word.to_str()) {
            Some(word) if word.starts_with('@') => Ok(Some(self.version("@V")?)),
            _ => Ok(None),
        }
    }

    /// Nothing may be left over.
    pub fn end(&self) -> Result<(), Fault> {
        match self.words.last() {
            None => Ok(()),
            Some(word) => Err(Fault::usage(format!(
                "{}: one word too many",
                word.display()
            ))),
        }
    }
}

fn whole(word: &OsString) -> Result<u32, Fault> {
    number(word.to_str().unwrap_or("?"))
}

/// A number as the console takes it: decimal digits, at most 4,294,967,295.
pub fn number(word: &str) -> Result<u32, Fault> {
    let digits = !word.is_empty() && word.bytes().all(|byte| byte.is_ascii_digit());
    let number = word.parse().ok().filter(|_| digits);
    number.ok_or_else(|| Fault::usage(format!("{word}: not a number from 0 to 4,294,967,295")))
}

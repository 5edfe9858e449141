//! "The console program": lines in, answers out.
//!
//! Input is read as a stream. Of a line no more than 81 bytes are kept, which
//! is enough to know that it has over 80.

use std::io::{self, BufRead, Write};

use crate::calls;
use crate::layout::PAGE_BYTES;
use crate::number;

const LONGEST_LINE: usize = 80;
const MOST_PAGES: u32 = 256;
const FEWEST_PAGES: u32 = 6;
/// Twice the entries of the 251 pages behind the directory.
const LIST_LENGTH: usize = 10_040;

#[derive(Clone, Copy, Debug, PartialEq, Eq)]
pub enum Command {
    Store(u32),
    Open,
    Insert(u32, u32),
    Delete(u32),
    Commit,
    Abandon,
    Get(u32, u32),
    Range(u32, u32, u32),
}

/// A line that is no bad line: its number, from 1 on, and its command.
#[derive(Clone, Copy, Debug, PartialEq, Eq)]
pub struct Record {
    pub line: u64,
    pub command: Command,
}

/// The answers to `input`, as the program writes them.
pub fn answers(input: &[u8]) -> Vec<u8> {
    let mut output = Vec::new();
    run(&mut &*input, &mut output).expect("memory can be read and written");
    output
}

/// Answers each line of `input` on `output` before it reads the next.
pub fn run(input: &mut dyn BufRead, output: &mut dyn Write) -> io::Result<()> {
    let mut console = Console::new();
    let mut line = 0;
    while let Some(text) = next_line(input)? {
        line += 1;
        match parse(&text) {
            Some(command) => console.answer(Record { line, command }, output)?,
            None => writeln!(output, "bad line")?,
        }
    }
    output.flush()
}

/// The next line without its newline, cut off behind 81 bytes. The last line
/// may lack the newline, but has a byte then.
fn next_line(input: &mut dyn BufRead) -> io::Result<Option<Vec<u8>>> {
    let mut text = Vec::new();
    let mut read_any = false;
    loop {
        let ready = match input.fill_buf() {
            Err(error) if error.kind() == io::ErrorKind::Interrupted => continue,
            ready => ready?,
        };
        if ready.is_empty() {
            return Ok(read_any.then_some(text));
        }
        read_any = true;
        let newline = ready.iter().position(|byte| *byte == b'\n');
        let part = &ready[..newline.unwrap_or(ready.len())];
        let room = LONGEST_LINE + 1 - text.len();
        text.extend(&part[..part.len().min(room)]);
        let passed = part.len() + usize::from(newline.is_some());
        input.consume(passed);
        if newline.is_some() {
            return Ok(Some(text));
        }
    }
}

/// The command of a line, or nothing for a bad line.
pub fn parse(text: &[u8]) -> Option<Command> {
    if text.len() > LONGEST_LINE {
        return None;
    }
    // Two spaces in a row, or one at an end, make an empty word, which is
    // neither a word nor a number.
    let mut words = text.split(|byte| *byte == b' ');
    let word = words.next()?;
    let numbers: Option<Vec<u32>> = words.map(parse_number).collect();
    match (word, numbers?.as_slice()) {
        (b"store", [pages]) => Some(Command::Store(*pages)),
        (b"open", []) => Some(Command::Open),
        (b"insert", [key, value]) => Some(Command::Insert(*key, *value)),
        (b"delete", [key]) => Some(Command::Delete(*key)),
        (b"commit", []) => Some(Command::Commit),
        (b"abandon", []) => Some(Command::Abandon),
        (b"get", [key, version]) => Some(Command::Get(*key, *version)),
        (b"range", [low, high, version]) => Some(Command::Range(*low, *high, *version)),
        _ => None,
    }
}

/// 1 to 10 decimal digits, at most 4,294,967,295. Leading zeros are digits.
pub fn parse_number(word: &[u8]) -> Option<u32> {
    let digits = (1..=10).contains(&word.len()) && word.iter().all(u8::is_ascii_digit);
    if !digits {
        return None;
    }
    let number = word
        .iter()
        .fold(0u64, |number, digit| 10 * number + u64::from(digit - b'0'));
    u32::try_from(number).ok()
}

/// The store, once one was accepted, and the list.
struct Console {
    store: Option<Vec<u8>>,
    list: Vec<u32>,
}

impl Console {
    fn new() -> Console {
        Console {
            store: None,
            list: vec![0; LIST_LENGTH],
        }
    }

    fn answer(&mut self, record: Record, output: &mut dyn Write) -> io::Result<()> {
        if let Command::Store(pages) = record.command {
            return done(self.make_store(pages), output);
        }
        let Some(store) = &mut self.store else {
            return done(number::LENGTH, output);
        };
        match record.command {
            Command::Store(_) => Ok(()),
            Command::Open => done(calls::open(store), output),
            Command::Insert(key, value) => done(calls::insert(store, key, value), output),
            Command::Delete(key) => done(calls::delete(store, key), output),
            Command::Commit => done(calls::commit(store), output),
            Command::Abandon => done(calls::abandon(store), output),
            Command::Get(key, version) => match calls::lookup(store, key, version) {
                (number::DONE, true, value) => writeln!(output, "value {value}"),
                (number::DONE, false, _) => writeln!(output, "absent"),
                (refusal, _, _) => done(refusal, output),
            },
            Command::Range(low, high, version) => {
                let list = &mut self.list;
                match calls::range(store, low, high, version, list) {
                    (number::DONE, count) => write_settings(&list[..2 * count as usize], output),
                    (refusal, _) => done(refusal, output),
                }
            }
        }
    }

    /// A refused `store` leaves an earlier one as it is.
    fn make_store(&mut self, pages: u32) -> u32 {
        if !(FEWEST_PAGES..=MOST_PAGES).contains(&pages) {
            return number::LENGTH;
        }
        let mut store = vec![0; pages as usize * PAGE_BYTES];
        let number = calls::fresh(&mut store);
        self.store = Some(store);
        number
    }
}

fn done(number: u32, output: &mut dyn Write) -> io::Result<()> {
    match number {
        number::DONE => writeln!(output, "ok"),
        refusal => writeln!(output, "refused {refusal}"),
    }
}

fn write_settings(list: &[u32], output: &mut dyn Write) -> io::Result<()> {
    writeln!(output, "count {}", list.len() / 2)?;
    for setting in list.chunks_exact(2) {
        writeln!(output, "{} {}", setting[0], setting[1])?;
    }
    Ok(())
}

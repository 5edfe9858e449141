//! The lent bytes and the list, and the answer to each line.

use std::io::{self, BufRead, Write};

use super::hash;
use super::line::{self, Line};
use crate::calls;
use crate::edition::{Edition, FIRST, SECOND};
use crate::engine::{Answer, Call, Engine};
use crate::number;
use crate::state::State;

/// How many numbers the caller's list holds at first.
pub const LIST_AT_FIRST: usize = 200_000;
/// What lent pages, and a lent list, are filled with.
const LENT_BYTE: u8 = 0xEE;
const LENT_NUMBER: u32 = 0xAAAA_AAAA;

/// Answers each line of `input` on `output`, by `engine`.
pub fn run(
    engine: &mut dyn Engine,
    input: &mut dyn BufRead,
    output: &mut dyn Write,
) -> io::Result<()> {
    let mut session = Session::new(engine);
    let mut text = Vec::new();
    while input.read_until(b'\n', &mut text)? > 0 {
        if text.last() == Some(&b'\n') {
            text.pop();
        }
        writeln!(output, "{}", session.answer(&text))?;
        text.clear();
    }
    output.flush()
}

/// The answers to `input`, a line each.
pub fn answers(engine: &mut dyn Engine, input: &[u8]) -> Vec<u8> {
    let mut output = Vec::new();
    run(engine, &mut &*input, &mut output).expect("memory can be read and written");
    output
}

pub struct Session<'a> {
    engine: &'a mut dyn Engine,
    store: Vec<u8>,
    /// The last target of a conversion, until it is used up.
    target: Option<Vec<u8>>,
    list_length: usize,
    lines: u64,
}

impl<'a> Session<'a> {
    /// Before any store the lent bytes are empty.
    pub fn new(engine: &'a mut dyn Engine) -> Session<'a> {
        Session {
            engine,
            store: Vec::new(),
            target: None,
            list_length: LIST_AT_FIRST,
            lines: 0,
        }
    }

    /// The lines' number from 1 on, the call's number and results or `bad`,
    /// and the hash of all bytes of the store after the line.
    pub fn answer(&mut self, text: &[u8]) -> String {
        self.lines += 1;
        let answer = match line::parse(text) {
            Some(line) => self.make(line),
            None => "bad".to_string(),
        };
        let store = hash::of_bytes(&self.store);
        format!("{} {answer} {store:016x}", self.lines)
    }

    fn make(&mut self, line: Line) -> String {
        match line {
            Line::Call(call) => return self.call(call),
            Line::Store(pages) => {
                self.store = lent_pages(&FIRST, pages);
                return self.call(Call::Fresh);
            }
            Line::StoreSecond(pages) => {
                self.store = lent_pages(&SECOND, pages);
                return self.call(Call::FreshSecond);
            }
            Line::Convert(pages) => return self.convert(pages),
            Line::Swap => {
                if let Some(target) = self.target.take() {
                    self.store = target;
                }
            }
            // Whoever answers: this program makes stores from before.
            Line::RawInsert(key, value) => {
                return calls::raw_insert(&mut self.store, key, value).to_string();
            }
            Line::RawCommit => return calls::raw_commit(&mut self.store).to_string(),
            Line::List(length) => self.list_length = length as usize,
            Line::Byte(at, byte) => {
                if let Some(place) = self.store.get_mut(at as usize) {
                    *place = byte;
                }
            }
            Line::Cut(length) => self.store.truncate(length as usize),
        }
        number::DONE.to_string()
    }

    /// The source is the store, which stays.
    fn convert(&mut self, pages: u32) -> String {
        let mut target = lent_pages(&SECOND, pages);
        let number = self.engine.convert(&self.store, &mut target);
        let hash = hash::of_bytes(&target);
        self.target = Some(target);
        format!("{number} target={hash:016x}")
    }

    fn call(&mut self, call: Call) -> String {
        let call = call.with_list(self.list_length);
        let mut list = vec![LENT_NUMBER; call.list_length()];
        let answer = self.engine.apply(call, &mut self.store, &mut list);
        format!("{}{}", answer.number, results(call, answer, &list))
    }
}

/// So many pages of an edition's size, as they are lent.
pub fn lent_pages(edition: &Edition, pages: u32) -> Vec<u8> {
    vec![LENT_BYTE; pages as usize * edition.page_bytes]
}

/// What a call gives besides its number, each result after a space.
fn results(call: Call, answer: Answer, list: &[u32]) -> String {
    match call {
        Call::Check => format!(" rule={}", answer.rule),
        Call::State => state_of(answer.state),
        Call::Lookup(..) => {
            let found = u32::from(answer.found);
            format!(" found={found} value={}", answer.value)
        }
        Call::Range(..) | Call::Difference(..) | Call::Life(..) => {
            let list = hash::of_numbers(list);
            format!(" count={} list={list:016x}", answer.count)
        }
        Call::Visits(..) if answer.number == number::DONE => {
            let pages = list[..answer.count as usize].iter();
            let pages: Vec<String> = pages.map(u32::to_string).collect();
            format!(" pages={}", pages.join(","))
        }
        Call::Visits(..) => " pages=".to_string(),
        _ => String::new(),
    }
}

fn state_of(told: State) -> String {
    let names = [
        "pages", "current", "open", "roots", "edition", "free", "oldest",
    ];
    let told = names.iter().zip(told.numbers());
    told.map(|(name, number)| format!(" {name}={number}"))
        .collect()
}

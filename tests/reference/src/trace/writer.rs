//! The lines of a trace as they are written, each made on the store at once.

use super::line::Line;
use super::session::{lent_pages, LIST_AT_FIRST};
use crate::calls;
use crate::edition::{Edition, FIRST, SECOND};
use crate::engine::{apply, Answer, Call};
use crate::rng::Rng;
use crate::store;

/// The lines so far, and what they make of bytes and list.
pub struct Writer {
    pub rng: Rng,
    pub text: Vec<u8>,
    pub count: usize,
    pub store: Vec<u8>,
    target: Option<Vec<u8>>,
    list_length: usize,
}

impl Writer {
    pub fn new(seed: u64) -> Writer {
        Writer {
            rng: Rng::new(seed ^ 0x7_2ACE),
            text: Vec::new(),
            count: 0,
            store: Vec::new(),
            target: None,
            list_length: LIST_AT_FIRST,
        }
    }

    /// Writes a line, makes it on the store, and gives the answer of its call.
    pub fn write(&mut self, line: Line) -> Answer {
        self.write_text(line.to_string().as_bytes());
        match line {
            Line::Call(call) => return self.make(call),
            Line::Store(pages) => {
                self.store = lent_pages(&FIRST, pages);
                return self.make(Call::Fresh);
            }
            Line::StoreSecond(pages) => {
                self.store = lent_pages(&SECOND, pages);
                return self.make(Call::FreshSecond);
            }
            Line::Convert(pages) => {
                let mut target = lent_pages(&SECOND, pages);
                let number = calls::convert(&self.store, &mut target);
                self.target = Some(target);
                return Answer::of(number);
            }
            Line::Swap => {
                if let Some(target) = self.target.take() {
                    self.store = target;
                }
            }
            Line::RawInsert(key, value) => {
                return Answer::of(calls::raw_insert(&mut self.store, key, value));
            }
            Line::RawCommit => return Answer::of(calls::raw_commit(&mut self.store)),
            Line::List(length) => self.list_length = length as usize,
            Line::Byte(at, byte) => {
                if let Some(place) = self.store.get_mut(at as usize) {
                    *place = byte;
                }
            }
            Line::Cut(length) => self.store.truncate(length as usize),
        }
        Answer::default()
    }

    pub fn write_text(&mut self, text: &[u8]) {
        self.text.extend(text);
        self.text.push(b'\n');
        self.count += 1;
    }

    fn make(&mut self, call: Call) -> Answer {
        let mut list = vec![0; call.list_length()];
        apply(call, &mut self.store, &mut list)
    }

    /// A call with the list that it asks for, or with the one that is there.
    pub fn write_call(&mut self, call: Call) -> Answer {
        let wanted = call.list_length();
        if call.takes_list() && wanted != self.list_length && !self.rng.once_in(3) {
            self.write(Line::List(wanted as u32));
        }
        self.write(Line::Call(call.with_list(self.list_length)))
    }

    /// Lends pages and makes a fresh store in them.
    pub fn write_fresh(&mut self, edition: &Edition, pages: u32) -> Answer {
        match edition == &FIRST {
            true => self.write(Line::Store(pages)),
            false => self.write(Line::StoreSecond(pages)),
        }
    }

    /// Lends a store from elsewhere: a fresh one, and each byte that differs.
    pub fn write_bytes(&mut self, bytes: Vec<u8>) {
        self.write_fresh(Edition::of(&bytes), store::page_count(&bytes));
        self.write_differing(&bytes);
    }

    pub fn write_differing(&mut self, bytes: &[u8]) {
        let places = self.store.iter().zip(bytes).enumerate();
        let differing: Vec<Line> = places
            .filter(|(_, (old, new))| old != new)
            .map(|(at, (_, new))| Line::Byte(at as u32, *new))
            .collect();
        for line in differing {
            self.write(line);
        }
    }
}

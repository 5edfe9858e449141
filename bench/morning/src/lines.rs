//! The console's lines, read and answered by the programs that stand beside it: a line is read where it stands.

use std::io::{self, BufRead, Write};

pub use reference::console::Command;

const MOST_BYTES: usize = 80;

/// "a number has 1 to 10 decimal digits and is at most 4,294,967,295"
#[inline]
fn number(word: &[u8]) -> Option<u32> {
    if word.is_empty() || word.len() > 10 {
        return None;
    }
    let mut sum = 0u64;
    for byte in word {
        let digit = byte.wrapping_sub(b'0');
        if digit > 9 {
            return None;
        }
        sum = 10 * sum + u64::from(digit);
    }
    u32::try_from(sum).ok()
}

#[inline]
pub fn parse(line: &[u8]) -> Option<Command> {
    if line.len() > MOST_BYTES {
        return None;
    }
    let mut words = line.split(|byte| *byte == b' ');
    let name = words.next()?;
    let command = {
        let mut next = || number(words.next()?);
        match name {
            b"store" => Command::Store(next()?),
            b"open" => Command::Open,
            b"insert" => Command::Insert(next()?, next()?),
            b"delete" => Command::Delete(next()?),
            b"commit" => Command::Commit,
            b"abandon" => Command::Abandon,
            b"get" => Command::Get(next()?, next()?),
            b"range" => Command::Range(next()?, next()?, next()?),
            _ => return None,
        }
    };
    match words.next() {
        Some(_) => None,
        None => Some(command),
    }
}

#[inline]
pub fn put(out: &mut Vec<u8>, number: u32) {
    let (mut digits, mut at, mut left) = ([0u8; 10], 10, number);
    loop {
        at -= 1;
        digits[at] = b'0' + (left % 10) as u8;
        left /= 10;
        if left == 0 {
            break;
        }
    }
    out.extend_from_slice(&digits[at..]);
}

#[inline]
pub fn say(out: &mut Vec<u8>, word: &[u8], number: u32) {
    out.extend_from_slice(word);
    put(out, number);
    out.push(b'\n');
}

#[inline]
pub fn done(out: &mut Vec<u8>, result: Result<(), u32>) {
    match result {
        Ok(()) => out.extend_from_slice(b"ok\n"),
        Err(number) => say(out, b"refused ", number),
    }
}

#[inline]
pub fn looked(out: &mut Vec<u8>, result: Result<Option<u32>, u32>) {
    match result {
        Ok(Some(value)) => say(out, b"value ", value),
        Ok(None) => out.extend_from_slice(b"absent\n"),
        Err(number) => say(out, b"refused ", number),
    }
}

/// Answers the lines of standard input, one by one.
#[inline]
pub fn obey(mut answer: impl FnMut(&[u8], &mut Vec<u8>)) -> io::Result<()> {
    let mut input = io::BufReader::with_capacity(65536, io::stdin().lock());
    let mut output = io::stdout().lock();
    let (mut line, mut out) = (Vec::new(), Vec::with_capacity(1 << 18));
    while input.read_until(b'\n', &mut line)? > 0 {
        if line.last() == Some(&b'\n') {
            line.pop();
        }
        answer(&line, &mut out);
        line.clear();
        if out.len() > 1 << 17 {
            output.write_all(&out)?;
            out.clear();
        }
    }
    output.write_all(&out)
}

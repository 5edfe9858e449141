//! The line language: document 01's example, bad lines, and long input.

mod common;

use std::io::{self, BufRead, BufReader, Read, Write};

use common::rounds;
use reference::calls;
use reference::console::{answers, parse, run, Command};
use reference::lines::{bad_lines, lines};

fn answered(input: &str) -> Vec<String> {
    let output = String::from_utf8(answers(input.as_bytes())).unwrap();
    output.lines().map(str::to_string).collect()
}

const EXAMPLE: &str = "store 16; open; insert 5 50; insert 9 90; commit; open; delete 5; \
                       get 5 1; get 5 2; abandon; range 0 20 1; get 5 2";

#[test]
fn the_example_word_for_word() {
    let input = EXAMPLE.replace("; ", "\n") + "\n";
    let expected = "ok\nok\nok\nok\nok\nok\nok\nvalue 50\nabsent\nok\n\
                    count 2\n5 50\n9 90\nrefused 6\n";
    assert_eq!(answers(input.as_bytes()), expected.as_bytes());
    // The last newline may be lacking.
    assert_eq!(answers(input.trim_end().as_bytes()), expected.as_bytes());
}

#[test]
fn reading_28_bad_lines_with_and_without_a_store() {
    for line in bad_lines() {
        assert_eq!(answered(&format!("{line}\n")), ["bad line"], "{line:?}");
        let after = answered(&format!("store 6\n{line}\nopen\n"));
        assert_eq!(after, ["ok", "bad line", "ok"], "{line:?}");
    }
}

#[test]
fn reading_28_where_lines_end() {
    assert_eq!(answers(b""), b"");
    assert_eq!(answered("\n"), ["bad line"]);
    assert_eq!(answered("\n\n"), ["bad line", "bad line"]);
    assert_eq!(answered("store 6"), ["ok"]);
    assert_eq!(answered("store 6\n"), ["ok"]);
    assert_eq!(answered("store 6\n "), ["ok", "bad line"]);
    assert_eq!(answered("store 6\r\n"), ["bad line"]);
}

#[test]
fn reading_28_numbers() {
    let numbers = [
        ("store 0000000006", "ok"),
        ("store 00000000006", "bad line"),
        ("store 4294967295", "refused 1"),
        ("store 4294967296", "bad line"),
        ("store 257", "refused 1"),
        // Before any store a bad line is still a bad line.
        ("get 1", "bad line"),
    ];
    for (line, answer) in numbers {
        assert_eq!(answered(line), [answer], "{line}");
    }
}

#[test]
fn no_byte_but_the_right_ones() {
    let good = b"insert 10 20";
    for at in 0..good.len() {
        for byte in (0..=255).filter(|byte| *byte != b'\n') {
            let mut line = good.to_vec();
            line[at] = byte;
            let digits = [7, 8, 10, 11].contains(&at) && byte.is_ascii_digit();
            let same = byte == good[at];
            let expected = digits || same;
            assert_eq!(parse(&line).is_some(), expected, "{line:?}");
        }
    }
}

#[test]
fn eighty_bytes_and_one_more() {
    // The longest good line has 38 bytes, so the limit of 80 shows nowhere
    // but in how much of a line has to be kept.
    let longest = "range 4294967295 4294967295 4294967295";
    let range = Command::Range(u32::MAX, u32::MAX, u32::MAX);
    assert_eq!(
        (longest.len(), parse(longest.as_bytes())),
        (38, Some(range))
    );
    for length in [80, 81, 82, 100_000] {
        // Bytes that are good ones up to somewhere.
        for (line, rest) in [("x", "x"), ("commit", " "), ("get 1 0", "0")] {
            let line = line.to_string() + &rest.repeat(length - line.len());
            let input = format!("store 6\n{line}\nopen\n{line}");
            assert_eq!(answered(&input), ["ok", "bad line", "ok", "bad line"]);
        }
    }
}

#[test]
fn refused_1_before_a_store_and_for_its_size() {
    let input = "open\nget 1 1\nrange 9 1 0\ncommit\nstore 5\nopen\nstore 257\nabandon\nstore 0\n";
    assert_eq!(answered(input), vec!["refused 1"; 9]);
    let kept = "store 6\nopen\nstore 257\nstore 5\ncommit\nget 3 1\n";
    let expected = ["ok", "ok", "refused 1", "refused 1", "refused 15", "absent"];
    assert_eq!(answered(kept), expected);
    // An accepted one begins anew.
    let anew = "store 6\nopen\ninsert 1 1\ncommit\nstore 256\nget 1 0\nget 1 1\n";
    let expected = ["ok", "ok", "ok", "ok", "ok", "absent", "refused 6"];
    assert_eq!(answered(anew), expected);
}

#[test]
fn numbers_of_refusals_come_through() {
    let input = "store 6\ncommit\nopen\nopen\ninsert 16777216 1\ninsert 16776960 1\n\
                 insert 16776959 1\ndelete 16776959\ndelete 16777215\ninsert 1 4294967295\n\
                 insert 1 2\ndelete 2\nget 1 1\nget 1 2\nrange 2 1 1\nrange 1 1 1\nrange 2 3 1\n";
    let expected = [
        "ok",
        "refused 7",
        "ok",
        "refused 8",
        "refused 5",
        "refused 5",
        "ok",
        "ok",
        "refused 11",
        "ok",
        "refused 10",
        "refused 11",
        "value 4294967295",
        "refused 6",
        "refused 5",
        "count 1",
        "1 4294967295",
        "count 0",
    ];
    assert_eq!(answered(input), expected);
}

#[test]
fn no_range_outgrows_the_list() {
    let mut input = String::from("store 256\nopen\n");
    for key in 0..6000 {
        input += &format!("insert {key} {key}\n");
    }
    input += "commit\nrange 0 16777215 1\n";
    let output = answered(&input);
    assert!(!output.iter().any(|line| line == "refused 14"));
    let inserted = output[2..6002].iter().filter(|line| *line == "ok").count();
    assert!(output.contains(&format!("count {inserted}")));
}

/// Input of any length that is made while it is read: lines of 1 MB and
/// millions of bytes in all, none of it ever held at once.
struct Endless {
    left: usize,
}

impl Read for Endless {
    fn read(&mut self, into: &mut [u8]) -> io::Result<usize> {
        let count = into.len().min(self.left);
        for byte in &mut into[..count] {
            self.left -= 1;
            *byte = if self.left.is_multiple_of(1 << 20) {
                b'\n'
            } else {
                b'z'
            };
        }
        Ok(count)
    }
}

struct Counter(usize);

impl Write for Counter {
    fn write(&mut self, bytes: &[u8]) -> io::Result<usize> {
        self.0 += bytes.iter().filter(|byte| **byte == b'\n').count();
        Ok(bytes.len())
    }

    fn flush(&mut self) -> io::Result<()> {
        Ok(())
    }
}

#[test]
fn huge_input_is_streamed() {
    let mut input = BufReader::new(Endless { left: 64 << 20 });
    let mut output = Counter(0);
    run(&mut input, &mut output).unwrap();
    assert_eq!(output.0, 64);
}

/// The answers do not depend on how the input arrives.
#[test]
fn input_in_small_pieces() {
    for seed in 0..20 {
        let input = lines(seed, 60);
        for size in [1, 7, 79, 80, 81, 4096] {
            let mut pieces: Box<dyn BufRead> = Box::new(BufReader::with_capacity(size, &*input));
            let mut output = Vec::new();
            run(&mut pieces, &mut output).unwrap();
            assert_eq!(output, answers(&input));
        }
    }
}

#[test]
fn generated_lines_meet_every_answer() {
    let mut words = std::collections::BTreeMap::<String, u64>::new();
    for seed in 0..rounds(60) {
        let input = lines(seed, 250);
        assert_eq!(input, lines(seed, 250));
        for line in answers(&input).split(|byte| *byte == b'\n') {
            let line = String::from_utf8(line.to_vec()).unwrap();
            let first = line.split(' ').next().unwrap_or("").to_string();
            let word = match first.as_str() {
                "refused" | "bad" => line,
                _ => first,
            };
            *words.entry(word).or_default() += 1;
        }
    }
    println!("{words:?}");
    for word in ["ok", "absent", "value", "count", "bad line"] {
        assert!(words[word] > 100, "{word}: {words:?}");
    }
    for number in [1, 5, 6, 7, 8, 10, 11, 12, 15] {
        assert!(
            words.contains_key(&format!("refused {number}")),
            "{words:?}"
        );
    }
    assert!(!words.contains_key("refused 4") && !words.contains_key("refused 14"));
}

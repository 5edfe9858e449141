//! The lines of a trace and their answers.

mod common;

use std::collections::BTreeMap;

use common::rounds;
use reference::calls;
use reference::engine::{apply, Answer, Call, Engine, Reference};
use reference::trace::hash;
use reference::trace::line::{parse, Line};
use reference::trace::seeds::{lines, MALFORMED};
use reference::trace::session::answers;

fn answered(input: &str) -> Vec<String> {
    let output = answers(&mut Reference, input.as_bytes());
    let output = String::from_utf8(output).unwrap();
    output.lines().map(str::to_string).collect()
}

/// The answers without the line's number in front and the store's hash behind.
fn told(input: &str) -> Vec<String> {
    let shortened = |(index, answer): (usize, String)| {
        let words: Vec<&str> = answer.split(' ').collect();
        assert_eq!(words[0], (index + 1).to_string());
        assert_eq!(words[words.len() - 1].len(), 16);
        words[1..words.len() - 1].join(" ")
    };
    answered(input)
        .into_iter()
        .enumerate()
        .map(shortened)
        .collect()
}

fn list_hash(front: &[u32], length: usize) -> String {
    let mut list = front.to_vec();
    list.resize(length, 0xAAAA_AAAA);
    format!("{:016x}", hash::of_numbers(&list))
}

#[test]
fn each_line_and_its_answer() {
    let input = "store 16\nopen\ninsert 5 50\ninsert 9 0\ncommit\nget 5 1\nget 9 1\nget 7 1\n\
                 list 6\nrange 0 20 1\nlist 3\nrange 0 20 1\nvisits 5 1\nlist 0\nvisits 5 1\n\
                 get 5 2\nrange 2 1 9\nopen\ndelete 5\nstate\nabandon\ncheck\ndelete 5";
    let six = list_hash(&[5, 50, 9, 0], 6);
    let three = list_hash(&[], 3);
    let none = list_hash(&[], 0);
    let expected = [
        "0",
        "0",
        "0",
        "0",
        "0",
        "0 found=1 value=50",
        "0 found=1 value=0",
        "0 found=0 value=0",
        "0",
        &format!("0 count=2 list={six}"),
        "0",
        &format!("14 count=2 list={three}"),
        "0 pages=5",
        "0",
        "14 pages=",
        "6 found=0 value=0",
        &format!("5 count=0 list={none}"),
        "0",
        "0",
        "0 pages=16 current=1 open=1 roots=1 edition=1 free=10 oldest=0",
        "0",
        "0 rule=0",
        "7",
    ];
    assert_eq!(told(input), expected);
}

/// Document 02's calls, each with a number that is not 0 too.
#[test]
fn the_lines_of_document_02() {
    let input = "state\nstore2 16\nopen\ninsert 5 50\nprune 0\ncommit\nopen\ndelete 5\n\
                 insert 5 51\ncommit\nopen\nreturn 3\nreturn 1\ncommit\nlist 10\nlife 5\n\
                 diff 1 2\ndiff 1 3\nprune 4\nprune 2\nprune 1\nlife 5\ndiff 1 2\nget 5 1\n\
                 visits 5 2\nreturn 2\nstate\nlist 5\nlife 5\nlife 16777216\nstore 6\nprune 0";
    let lived = list_hash(&[1, 2, 50, 2, 3, 51, 3, 1_048_575, 50], 10);
    let changed = list_hash(&[5, 2, 50, 51], 10);
    let kept = list_hash(&[2, 3, 51, 3, 1_048_575, 50], 10);
    let (ten, five) = (list_hash(&[], 10), list_hash(&[], 5));
    let expected = format!(
        "1 pages=0 current=0 open=0 roots=0 edition=0 free=0 oldest=0\n0\n0\n0\n8\n0\n0\n0\n\
         0\n0\n0\n6\n0\n0\n0\n0 count=3 list={lived}\n\
         0 count=1 list={changed}\n0 count=0 list={ten}\n6\n0\n6\n0 count=2 list={kept}\n\
         6 count=0 list={ten}\n6 found=0 value=0\n0 pages=5\n7\n\
         0 pages=16 current=3 open=0 roots=1 edition=2 free=10 oldest=2\n0\n\
         14 count=2 list={five}\n5 count=0 list={five}\n0\n3"
    );
    assert_eq!(told(input).join("\n"), expected);
}

#[test]
fn the_hash_is_of_all_bytes_after_the_line() {
    let mut bytes = vec![0; 6 * 256];
    assert_eq!(calls::fresh(&mut bytes), 0);
    let fresh = hash_of(&bytes);
    let empty = "cbf29ce484222325";
    let refused = hash_of(&[0xEE; 5 * 256]);
    bytes[1535] = 7;
    let changed = hash_of(&bytes);
    let first = hash_of(&bytes[..1]);
    let input = "open\nstore 6\nbyte 1535 7\nbyte 1536 7\nfoo\ncheck\ncut 1\ncut 9\nbyte 1 1\n\
                 cut 0\nstore 5\nopen\n";
    let expected = [
        format!("1 1 {empty}"),
        format!("2 0 {fresh}"),
        format!("3 0 {changed}"),
        format!("4 0 {changed}"),
        format!("5 bad {changed}"),
        format!("6 4 rule=1 {changed}"),
        format!("7 0 {first}"),
        format!("8 0 {first}"),
        format!("9 0 {first}"),
        format!("10 0 {empty}"),
        format!("11 1 {refused}"),
        format!("12 2 {refused}"),
    ];
    assert_eq!(answered(input), expected);
}

fn hash_of(bytes: &[u8]) -> String {
    format!("{:016x}", hash::of_bytes(bytes))
}

/// The hashes of fresh stores: of edition 1, with six pages, and 2, with seven.
fn fresh_hashes() -> (String, String) {
    let mut first = vec![0; 6 * 256];
    calls::fresh(&mut first);
    let mut second = vec![0; 7 * 512];
    calls::fresh_second(&mut second);
    (hash_of(&first), hash_of(&second))
}

/// What is no store is not converted; the target is used up by a swap all the same,
/// and a swap without one does nothing.
#[test]
fn a_conversion_that_is_refused() {
    let (first, second) = fresh_hashes();
    let refused = hash_of(&[0xEE; 5 * 512]);
    let input = "swap\nconvert 7\nstore 6\nswap\nconvert 7\ncheck\nconvert 5\nconvert 7\nswap\n\
                 check\nconvert 7\nswap\nswap\ncheck\nstore2 7\nstore2 5\n";
    let empty = "cbf29ce484222325";
    let lent = hash_of(&[0xEE; 7 * 512]);
    let expected = [
        format!("1 0 {empty}"),
        format!("2 1 target={lent} {empty}"),
        format!("3 0 {first}"),
        format!("4 0 {lent}"),
        format!("5 2 target={lent} {lent}"),
        format!("6 2 rule=0 {lent}"),
        format!("7 2 target={refused} {lent}"),
        format!("8 2 target={lent} {lent}"),
        format!("9 0 {lent}"),
        format!("10 2 rule=0 {lent}"),
        format!("11 2 target={lent} {lent}"),
        format!("12 0 {lent}"),
        format!("13 0 {lent}"),
        format!("14 2 rule=0 {lent}"),
        format!("15 0 {second}"),
        format!("16 1 {refused}"),
    ];
    assert_eq!(answered(input), expected);
}

/// The source stays, and the target takes its place by a swap.
#[test]
fn a_conversion_and_its_target() {
    let (first, second) = fresh_hashes();
    let refused = hash_of(&[0xEE; 5 * 512]);
    let lent = hash_of(&[0xEE; 7 * 512]);
    let input = "store 6\nconvert 7\nconvert 5\nconvert 7\nswap\nswap\nconvert 7\n";
    let expected = [
        format!("1 0 {first}"),
        format!("2 0 target={second} {first}"),
        format!("3 1 target={refused} {first}"),
        format!("4 0 target={second} {first}"),
        format!("5 0 {second}"),
        format!("6 0 {second}"),
        format!("7 3 target={lent} {second}"),
    ];
    assert_eq!(answered(input), expected);
}

#[test]
fn a_list_of_200000_numbers_at_first() {
    let hash = list_hash(&[], 200_000);
    let input = "range 0 1 0\nstore 6\nrange 0 1 0\n";
    let expected = [
        format!("1 count=0 list={hash}"),
        "0".into(),
        format!("0 count=0 list={hash}"),
    ];
    assert_eq!(told(input), expected);
}

#[test]
fn malformed_lines() {
    for line in MALFORMED {
        assert_eq!(parse(line.as_bytes()), None, "{line:?}");
        assert_eq!(told(&format!("{line}\nopen\n")), ["bad", "1"], "{line:?}");
    }
    assert!(answered("").is_empty());
    assert_eq!(told("\n"), ["bad"]);
    assert_eq!(told("\nopen"), ["bad", "1"]);
    assert_eq!(parse(b"store 5000"), Some(Line::Store(5000)));
    assert_eq!(
        parse(b"byte 4294967295 255"),
        Some(Line::Byte(u32::MAX, 255))
    );
}

/// A line is written as it is read.
#[test]
fn lines_there_and_back() {
    let mut good = 0;
    for seed in 0..4 {
        for text in lines(seed, 300).split(|byte| *byte == b'\n') {
            if let Some(line) = parse(text) {
                assert_eq!(line.to_string().as_bytes(), text);
                good += 1;
            }
        }
    }
    assert!(good > 1000);
}

const WORDS: &str = "store store2 open insert delete commit abandon get range check visits list \
                     byte cut rawinsert rawcommit diff life return convert swap prune state";
const NUMBERS: &str = "0 1 2 3 4 5 6 7 8 10 11 12 14 15 bad";

/// How often each first word and each number stands in generated lines.
#[test]
fn generated_lines_meet_every_word_and_number() {
    let (mut words, mut numbers) = (BTreeMap::new(), BTreeMap::new());
    for seed in 0..rounds(40) {
        let input = lines(seed, 1000);
        assert!(seed > 3 || input == lines(seed, 1000));
        let output = answers(&mut Reference, &input);
        let pairs = input
            .split(|b| *b == b'\n')
            .zip(output.split(|b| *b == b'\n'));
        for (line, answer) in pairs.filter(|(_, answer)| !answer.is_empty()) {
            let line = String::from_utf8_lossy(line);
            let word = line.split(' ').next().unwrap_or("").to_string();
            *words.entry(word).or_insert(0u64) += 1;
            let answer = String::from_utf8_lossy(answer);
            let number = answer.split(' ').nth(1).unwrap_or("").to_string();
            *numbers.entry(number).or_insert(0u64) += 1;
        }
    }
    println!("{words:?}\n{numbers:?}");
    for word in WORDS.split(' ') {
        assert!(words[word] > 10, "{word}: {words:?}");
    }
    for number in NUMBERS.split(' ') {
        assert!(numbers[number] > 10, "{number}: {numbers:?}");
    }
}

/// This program with a fault.
struct Faulty(fn(Call, &mut [u8], &mut [u32], &mut Answer));

impl Engine for Faulty {
    fn apply(&mut self, call: Call, store: &mut [u8], list: &mut [u32]) -> Answer {
        let mut answer = apply(call, store, list);
        (self.0)(call, store, list, &mut answer);
        answer
    }

    fn convert(&mut self, source: &[u8], target: &mut [u8]) -> u32 {
        calls::convert(source, target)
    }
}

fn is_caught(fault: fn(Call, &mut [u8], &mut [u32], &mut Answer)) -> bool {
    (0..6).any(|seed| {
        let input = lines(seed, 600);
        answers(&mut Faulty(fault), &input) != answers(&mut Reference, &input)
    })
}

#[test]
fn a_faulty_program_is_caught() {
    assert!(!is_caught(|_, _, _, _| {}));
    assert!(is_caught(|_, _, _, answer| answer.rule = answer.rule.min(5)));
    assert!(is_caught(|_, _, _, answer| answer.state.oldest = 0));
    assert!(is_caught(|call, _, _, answer| {
        answer.state.free += u32::from(call == Call::State && answer.number == 0);
    }));
    assert!(is_caught(|call, _, list, answer| {
        if let (Call::Visits(..), 0) = (call, answer.number) {
            list[answer.count as usize - 1] += 1;
        }
    }));
    assert!(is_caught(|call, _, list, answer| {
        if let (Call::Range(..), Some(behind)) = (call, list.get_mut(2 * answer.count as usize)) {
            *behind = 0;
        }
    }));
    assert!(is_caught(|call, store, _, answer| {
        if call == Call::Open && answer.number == 8 {
            store[1500] ^= 1;
        }
    }));
    assert!(is_caught(|_, _, _, answer| {
        if answer.number == 6 {
            answer.number = 5;
        }
    }));
}

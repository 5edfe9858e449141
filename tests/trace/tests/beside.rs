//! The lines of histories from seeds, answered by both programs and compared
//! line by line.

use host::Proved;
use reference::engine::Reference;
use reference::trace::seeds;
use reference::trace::session::answers;

/// Lines that the library cannot answer yet.
const NOT_YET: &[&str] = &[];

/// `usual`, or twenty times that if `RCST_LONG` is set.
fn rounds(usual: u64) -> u64 {
    match std::env::var("RCST_LONG") {
        Ok(_) => usual * 20,
        Err(_) => usual,
    }
}

fn lines(seed: u64, count: usize) -> Vec<u8> {
    let lines = seeds::lines(seed, count);
    let kept = lines.split_inclusive(|byte| *byte == b'\n').filter(|line| {
        let mut words = line.split(|byte| *byte == b' ');
        let word = words.next().unwrap_or(&[]);
        !NOT_YET.iter().any(|not_yet| not_yet.as_bytes() == word)
    });
    kept.flatten().copied().collect()
}

/// Both answer each line alike; how many lines there were.
fn compared(seed: u64, input: &[u8]) -> usize {
    let left = answers(&mut Reference, input);
    let right = answers(&mut Proved, input);
    let all = || {
        left.split(|b| *b == b'\n')
            .zip(right.split(|b| *b == b'\n'))
    };
    for ((left, right), line) in all().zip(input.split(|b| *b == b'\n')) {
        let text = String::from_utf8_lossy;
        let (left, right, line) = (text(left), text(right), text(line));
        assert_eq!(left, right, "seed {seed}, line {line:?}");
    }
    assert_eq!(left, right, "seed {seed}");
    input.iter().filter(|byte| **byte == b'\n').count()
}

#[test]
fn histories_from_seeds() {
    let seeds = 0..rounds(30);
    let lines: usize = seeds.map(|seed| compared(seed, &lines(seed, 1500))).sum();
    println!("{lines} lines compared");
    assert!(lines > 30_000);
}

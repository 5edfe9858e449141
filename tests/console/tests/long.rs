//! One long run: memory that stays as it is, and a time for each line that does
//! not grow. 40,000 lines, or a million with `RCST_LONG`.

use std::io::{Read, Write};
use std::time::Instant;

use console::{peak_resident, rounds, start};

/// Lines whose cost does not depend on those before: the store has few pages,
/// and each part makes it anew.
fn part() -> (Vec<u8>, usize) {
    let mut text = String::from("store 12\nopen\n");
    let mut count = 2;
    for key in 0..12 {
        text += &format!("insert {key} {}\n", key * 7);
        count += 1;
    }
    text += "commit\n";
    count += 1;
    while count < 1000 {
        text += "get 5 1\nbad line here\nget 40 1\nrange 0 3 1\n";
        count += 4;
    }
    (text.into_bytes(), count)
}

#[test]
fn a_million_lines_in_constant_memory_and_time() {
    let (text, lines_a_part) = part();
    let parts = (rounds(50_000) as usize).min(1_000_000) / lines_a_part / 10 * 10;
    let expected = reference::console::answers(&text);
    let mut child = start();
    let mut to = child.stdin.take().expect("a pipe");
    let mut from = child.stdout.take().expect("a pipe");
    let mut tenths: Vec<f64> = Vec::new();
    let mut sizes: Vec<u64> = Vec::new();
    let mut output = vec![0; expected.len()];
    for _ in 0..10 {
        let begun = Instant::now();
        for _ in 0..parts / 10 {
            to.write_all(&text).expect("it reads on");
            from.read_exact(&mut output).expect("it answers each piece");
            assert!(output == expected, "a part's answers differ");
        }
        tenths.push(begun.elapsed().as_secs_f64() / (parts / 10 * lines_a_part) as f64 * 1e6);
        sizes.push(peak_resident(&child));
    }
    drop(to);
    assert_eq!(from.read(&mut output).expect("its end"), 0);
    assert!(child.wait().expect("its end").success());
    let lines = parts * lines_a_part;
    println!("{lines} lines; microseconds a line, tenth by tenth: {tenths:.2?}; peak resident KiB: {sizes:?}");
    assert!(sizes[9] <= sizes[0] + 64, "memory grew: {sizes:?}");
    let early = tenths[..5].iter().cloned().fold(f64::MAX, f64::min);
    let late = tenths[5..].iter().cloned().fold(f64::MAX, f64::min);
    assert!(
        late < 2.0 * early + 1.0,
        "the time a line takes grew: {tenths:?}"
    );
}

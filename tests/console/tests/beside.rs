//! The proved console beside the independent one: every byte of the output.

use console::{answers, answers_in_pieces, difference, rounds};
use reference::lines::{bad_lines, lines};
use reference::rng::Rng;

fn same(input: &[u8], name: &str) {
    let expected = reference::console::answers(input);
    if let Some(difference) = difference(&answers(input), &expected) {
        panic!("{name}: {difference}");
    }
}

#[test]
fn the_example_word_for_word() {
    let input =
        "store 16; open; insert 5 50; insert 9 90; commit; open; delete 5; get 5 1; get 5 2; \
                 abandon; range 0 20 1; get 5 2"
            .replace("; ", "\n");
    let expected =
        b"ok\nok\nok\nok\nok\nok\nok\nvalue 50\nabsent\nok\ncount 2\n5 50\n9 90\nrefused 6\n";
    assert_eq!(answers(input.as_bytes()), expected);
    assert_eq!(answers((input + "\n").as_bytes()), expected);
}

/// 2026-06: "Insert refuses them with 5. Lookup, range and delete still take
/// them".
#[test]
fn bench_keys() {
    let lines = [
        ("store 6", "ok"),
        ("insert 16776959 1", "refused 7"),
        ("insert 16776960 1", "refused 5"),
        ("insert 16777215 1", "refused 5"),
        ("open", "ok"),
        ("insert 16776959 1", "ok"),
        ("insert 16776959 2", "refused 10"),
        ("insert 16776960 1", "refused 5"),
        ("insert 16777215 1", "refused 5"),
        ("insert 16777216 1", "refused 5"),
        ("delete 16776960", "refused 11"),
        ("delete 16777215", "refused 11"),
        ("delete 16777216", "refused 5"),
        ("get 16776959 1", "value 1"),
        ("get 16776960 1", "absent"),
        ("get 16777215 1", "absent"),
        ("get 16777216 1", "refused 5"),
        ("range 16776959 16777215 1", "count 1\n16776959 1"),
        ("range 16776960 16777216 1", "refused 5"),
        ("commit", "ok"),
    ];
    let input: String = lines.iter().map(|(line, _)| format!("{line}\n")).collect();
    let expected: String = lines
        .iter()
        .map(|(_, answer)| format!("{answer}\n"))
        .collect();
    assert_eq!(
        String::from_utf8_lossy(&answers(input.as_bytes())),
        expected
    );
}

/// A commit refused by 15 leaves the update open: 2026-05.
#[test]
fn an_empty_release() {
    let input = "store 16; commit; open; commit; insert 5 50; delete 5; commit; insert 5 50; commit; \
                 open; delete 5; insert 5 50; commit; delete 5; insert 5 51; get 5 2; commit; get 5 1; \
                 open; commit; abandon; commit"
        .replace("; ", "\n");
    let expected = b"ok\nrefused 7\nok\nrefused 15\nok\nok\nrefused 15\nok\nok\n\
        ok\nok\nok\nrefused 15\nok\nok\nvalue 51\nok\nvalue 50\n\
        ok\nrefused 15\nok\nrefused 7\n";
    assert_eq!(answers(input.as_bytes()), expected);
    same(input.as_bytes(), "an empty release");
}

#[test]
fn histories() {
    for seed in 0..rounds(2000) {
        let count = 10 + (seed % 31) as usize;
        same(&lines(seed, count), &format!("history {seed} {count}"));
    }
}

#[test]
fn longer_histories() {
    for seed in 0..rounds(6) {
        same(&lines(seed, 2500), &format!("history {seed} 2500"));
    }
}

/// Lines at the borders of what a command is, some on either side.
const AT_THE_BORDERS: [&str; 39] = [
    "open\r",
    "store 16\r",
    "get 5 1\r",
    "insert 5\u{a0}50",
    "insert 00000000005 1",
    "insert 0000000005 1",
    "insert 5 4294967295",
    "insert 5 4294967296",
    "insert 16777216 1",
    "insert 16777215 1",
    "insert 16776960 1",
    "insert 16776959 1",
    "store 4294967296",
    "store 4294967295",
    "store 257",
    "store 256",
    "store 6",
    "store 5",
    "store 0",
    "store 00000000016",
    "store 0000000016",
    "get 5  1",
    "get  5 1",
    " get 5 1",
    "get 5 1 ",
    "get\t5 1",
    "get 5\t1",
    "range 0 20",
    "range 0 20 1 ",
    "range 20 0 1",
    "range 0 16777216 1",
    "range 0 16777215 1",
    "delete 99999999999",
    "7",
    "ok",
    "open open",
    "",
    " ",
    "  ",
];

/// Lines that are almost commands: each in front of a good one, and as the last
/// line with no newline.
#[test]
fn almost_commands() {
    for line in AT_THE_BORDERS.iter().chain(bad_lines()) {
        for text in [
            format!("{line}\nstore 6\nopen\n{line}\nget 5 1\n"),
            format!("store 6\nopen\n{line}"),
            format!("{line}"),
            format!(
                "store 16\nopen\ninsert 5 50\n{line}\n{line}\ncommit\nrange 0 16777215 1\n{line}"
            ),
        ] {
            same(text.as_bytes(), &format!("{line:?} in {text:?}"));
        }
    }
}

/// 79, 80, 81 bytes and far more: of zeros, of spaces, of a good line made long.
#[test]
fn long_lines() {
    for length in (75..90).chain([1000, 65534, 65535, 65536, 65537, 200_000]) {
        for (start, filler) in [
            ("insert 1 ", '0'),
            ("open", ' '),
            ("", 'x'),
            ("", '\u{0}'),
            ("get 5 1", ' '),
        ] {
            let mut line = start.to_string();
            while line.len() < length {
                line.push(filler);
            }
            same(
                format!("store 6\n{line}\nopen\n{line}").as_bytes(),
                &format!("{start:?} to {length}"),
            );
        }
    }
}

/// The empty input writes nothing; text behind the last newline is a line only
/// if it has a byte.
#[test]
fn where_lines_end() {
    for text in [
        "",
        "\n",
        "\n\n",
        "open",
        "open\n",
        "open\n\n",
        "\nopen",
        "store 6\n\n",
        "store 6\nopen",
        "\r\n",
        "store 6\r\nopen\n",
    ] {
        same(text.as_bytes(), &format!("{text:?}"));
    }
}

#[test]
fn any_bytes() {
    let mut rng = Rng::new(28);
    for round in 0..rounds(200) {
        let mut input = lines(round, 40);
        for _ in 0..rng.between(1, 20) {
            let at = rng.below(input.len() as u32) as usize;
            match rng.below(3) {
                0 => input[at] = rng.word() as u8,
                1 => input.insert(at, rng.word() as u8),
                _ => drop(input.remove(at)),
            }
        }
        same(&input, &format!("bytes {round}"));
    }
}

/// However the input is cut into pieces, the output is the same.
#[test]
fn cut_anywhere() {
    let mut rng = Rng::new(81);
    for round in 0..rounds(40) {
        let input = lines(1000 + round, 60);
        let mut cuts: Vec<usize> = (0..rng.between(1, 60))
            .map(|_| rng.below(input.len() as u32) as usize)
            .collect();
        cuts.sort_unstable();
        let output = answers_in_pieces(&input, &cuts);
        let expected = reference::console::answers(&input);
        if let Some(difference) = difference(&output, &expected) {
            panic!("history {} cut at {cuts:?}: {difference}", 1000 + round);
        }
    }
}

/// A range of all settings of a full store, again and again in one read: more
/// output than any buffer holds.
#[test]
fn much_output() {
    let mut input = String::from("store 256\nopen\n");
    for key in 0..600 {
        input += &format!("insert {} {}\n", key * 27_000, 4_294_967_295u32 - key);
    }
    input += "commit\n";
    for _ in 0..rounds(100) {
        input += "range 0 16777215 1\nget 27000 1\n";
    }
    same(input.as_bytes(), "much output");
}

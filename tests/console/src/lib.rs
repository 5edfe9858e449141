//! The built console program, run as its users run it: lines to its standard
//! input, answers from its standard output. `rt run` in crates/console builds
//! it; `RCST_CONSOLE` names another one.

use std::io::{Read, Write};
use std::path::PathBuf;
use std::process::{Child, ChildStdin, Command, Stdio};
use std::thread;

pub fn program() -> PathBuf {
    match std::env::var_os("RCST_CONSOLE") {
        Some(path) => path.into(),
        None => concat!(
            env!("CARGO_MANIFEST_DIR"),
            "/../../crates/console/out/console"
        )
        .into(),
    }
}

/// The program, started, with nothing written to it yet.
pub fn start() -> Child {
    let path = program();
    Command::new(&path)
        .stdin(Stdio::piped())
        .stdout(Stdio::piped())
        .spawn()
        .unwrap_or_else(|error| {
            panic!(
                "{}: {error}; `rt run` in crates/console builds it",
                path.display()
            )
        })
}

/// What the program writes while `give` writes its input.
fn written(give: impl FnOnce(ChildStdin) + Send + 'static) -> Vec<u8> {
    let mut child = start();
    let input = child.stdin.take().expect("a pipe");
    let giver = thread::spawn(move || give(input));
    let mut output = Vec::new();
    let mut pipe = child.stdout.take().expect("a pipe");
    pipe.read_to_end(&mut output).expect("its output");
    giver.join().expect("its input");
    assert!(child.wait().expect("its end").success());
    output
}

/// What the program writes for an input.
pub fn answers(input: &[u8]) -> Vec<u8> {
    let input = input.to_vec();
    written(move |mut pipe| pipe.write_all(&input).expect("it reads on"))
}

/// The same with the input given in pieces, cut before each of these places.
/// The pause lets the program read a piece before the next one comes.
pub fn answers_in_pieces(input: &[u8], cuts: &[usize]) -> Vec<u8> {
    let input = input.to_vec();
    let cuts = cuts.to_vec();
    written(move |mut pipe| {
        let mut from = 0;
        for to in cuts.into_iter().chain([input.len()]) {
            pipe.write_all(&input[from..to]).expect("it reads on");
            pipe.flush().expect("it reads on");
            thread::sleep(std::time::Duration::from_micros(300));
            from = to;
        }
    })
}

/// The largest resident size of a running process so far, in KiB.
pub fn peak_resident(child: &Child) -> u64 {
    let status =
        std::fs::read_to_string(format!("/proc/{}/status", child.id())).expect("its status");
    status
        .lines()
        .find_map(|line| line.strip_prefix("VmHWM:"))
        .and_then(|rest| rest.trim().trim_end_matches(" kB").trim().parse().ok())
        .expect("VmHWM")
}

/// How often a test goes round: `usual`, or twenty times that if `RCST_LONG` is
/// set.
pub fn rounds(usual: u64) -> u64 {
    match std::env::var("RCST_LONG") {
        Ok(_) => usual * 20,
        Err(_) => usual,
    }
}

/// Where two outputs part, with the line before, for a message.
pub fn difference(left: &[u8], right: &[u8]) -> Option<String> {
    let mut lefts = left.split(|&b| b == b'\n');
    let mut rights = right.split(|&b| b == b'\n');
    for number in 1.. {
        match (lefts.next(), rights.next()) {
            (None, None) => return None,
            (left, right) if left == right => {}
            (left, right) => {
                let text =
                    |line: Option<&[u8]>| line.map(|l| String::from_utf8_lossy(l).into_owned());
                return Some(format!(
                    "answer line {number}: {:?} and {:?}",
                    text(left),
                    text(right)
                ));
            }
        }
    }
    None
}

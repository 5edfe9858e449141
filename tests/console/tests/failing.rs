//! Input and output that fail: half a line is not obeyed, nothing is lost in
//! silence, and `./console`, which starts the program, gives a status.

use console::program;
use std::fs::{File, OpenOptions};
use std::io::{Read, Write};
use std::os::fd::OwnedFd;
use std::os::unix::net::UnixStream;
use std::process::{Command, Output, Stdio};

/// The program itself, and the script that gives a status.
fn both() -> [Command; 2] {
    let path = program();
    let mut script = Command::new(concat!(env!("CARGO_MANIFEST_DIR"), "/../../console"));
    script.env("RCST_CONSOLE", &path);
    [Command::new(path), script]
}

fn said(output: &Output) -> String {
    String::from_utf8_lossy(&output.stderr).into_owned()
}

/// Two ends of a connection, the second of which never waits.
fn unwaiting() -> (UnixStream, Stdio) {
    let (ours, theirs) = UnixStream::pair().expect("two ends");
    theirs.set_nonblocking(true).expect("a flag");
    (ours, OwnedFd::from(theirs).into())
}

/// Lines whose answers are longer than any pipe.
fn long_answers() -> Vec<u8> {
    let mut lines = b"store 256\nopen\n".to_vec();
    for key in 0..2000 {
        lines.extend(format!("insert {key} {key}\n").bytes());
    }
    lines.extend(b"range 0 16777215 1\n".repeat(50));
    lines
}

#[test]
fn a_full_disk_is_said() {
    for (turn, mut command) in both().into_iter().enumerate() {
        let full = OpenOptions::new()
            .write(true)
            .open("/dev/full")
            .expect("it is there");
        let mut child = command
            .stdin(Stdio::piped())
            .stdout(full)
            .stderr(Stdio::piped())
            .spawn()
            .expect("it starts");
        let mut input = child.stdin.take().expect("a pipe");
        input.write_all(b"store 16\nopen\n").expect("it reads");
        drop(input);
        let output = child.wait_with_output().expect("its end");
        assert!(said(&output).starts_with("console: No space"), "{output:?}");
        assert!(turn == 0 || !output.status.success());
    }
}

#[test]
fn a_closed_output_is_said() {
    for (turn, command) in both().into_iter().enumerate() {
        let output = Command::new("sh")
            .args(["-c", "exec \"$0\" >&-"])
            .arg(command.get_program())
            .env("RCST_CONSOLE", program())
            .stdin(File::open(concat!(env!("CARGO_MANIFEST_DIR"), "/README.md")).expect("a file"))
            .output()
            .expect("it starts");
        assert!(!said(&output).is_empty());
        assert!(turn == 0 || !output.status.success());
    }
}

#[test]
fn a_folder_as_input_is_said() {
    for (turn, mut command) in both().into_iter().enumerate() {
        let output = command
            .stdin(File::open("/").expect("a folder"))
            .output()
            .expect("it starts");
        assert!(output.stdout.is_empty());
        assert!(
            said(&output).starts_with("console: Is a directory"),
            "{output:?}"
        );
        assert!(turn == 0 || !output.status.success());
    }
}

#[test]
fn half_a_line_is_not_obeyed_where_a_read_fails() {
    for (turn, mut command) in both().into_iter().enumerate() {
        let (mut ours, theirs) = unwaiting();
        ours.write_all(b"store 16\nopen\ninsert 4 5\ncommit\nget 4 1")
            .expect("room");
        let output = command.stdin(theirs).output().expect("it starts");
        assert_eq!(output.stdout, b"ok\nok\nok\nok\n");
        assert!(said(&output).starts_with("console: "), "{output:?}");
        assert!(turn == 0 || !output.status.success());
    }
}

#[test]
fn an_output_that_would_block_loses_nothing_in_silence() {
    for (turn, mut command) in both().into_iter().enumerate() {
        let (mut ours, theirs) = unwaiting();
        let mut child = command
            .stdin(Stdio::piped())
            .stdout(theirs)
            .stderr(Stdio::piped())
            .spawn()
            .expect("it starts");
        // what this process holds of the other end goes with the command
        drop(command);
        let mut input = child.stdin.take().expect("a pipe");
        let giver = std::thread::spawn(move || {
            // it may stop before it has read all
            let _ = input.write_all(&long_answers());
        });
        let output = child.wait_with_output().expect("its end");
        giver.join().expect("the input");
        let mut came = Vec::new();
        ours.read_to_end(&mut came).expect("what was written");
        let due = console::answers(&long_answers());
        assert!(came.len() < due.len() && due.starts_with(&came));
        assert!(said(&output).starts_with("console: "), "{output:?}");
        assert!(turn == 0 || !output.status.success());
    }
}

#[test]
fn a_cut_pipe_ends_the_program() {
    for mut command in both() {
        let mut child = command
            .stdin(Stdio::piped())
            .stdout(Stdio::piped())
            .stderr(Stdio::piped())
            .spawn()
            .expect("it starts");
        drop(child.stdout.take());
        let mut input = child.stdin.take().expect("a pipe");
        // it may end before it has read all
        let _ = input.write_all(&long_answers());
        drop(input);
        let output = child.wait_with_output().expect("its end");
        assert!(!output.status.success(), "{output:?}");
    }
}

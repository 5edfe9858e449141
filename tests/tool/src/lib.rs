//! The administrator's tool, run as its users run it: words on a command line, a
//! text on standard input, files in a folder. `tools/rcst` is built beforehand;
//! `RCST_TOOL` names another program.

use std::ffi::OsStr;
use std::fs;
use std::io::Write;
use std::path::{Path, PathBuf};
use std::process::{Child, Command, Stdio};
use std::sync::atomic::{AtomicUsize, Ordering};

pub fn program() -> PathBuf {
    match std::env::var_os("RCST_TOOL") {
        Some(path) => path.into(),
        None => concat!(
            env!("CARGO_MANIFEST_DIR"),
            "/../../tools/rcst/target/release/rcst"
        )
        .into(),
    }
}

/// What the program left: its exit status, and what it wrote.
#[derive(Clone, Debug, PartialEq, Eq)]
pub struct Said {
    pub status: i32,
    pub out: String,
    pub err: String,
}

/// A folder of files that goes with its owner.
pub struct Folder(PathBuf);

impl Default for Folder {
    fn default() -> Folder {
        Folder::new()
    }
}

impl Folder {
    pub fn new() -> Folder {
        static NEXT: AtomicUsize = AtomicUsize::new(0);
        let next = NEXT.fetch_add(1, Ordering::Relaxed);
        let name = format!("rcst-tool-{}-{next}", std::process::id());
        let path = std::env::temp_dir().join(name);
        fs::create_dir(&path).expect("a folder");
        Folder(path)
    }

    pub fn path(&self, name: &str) -> PathBuf {
        self.0.join(name)
    }

    pub fn bytes(&self, name: &str) -> Vec<u8> {
        fs::read(self.path(name)).expect("a file")
    }

    pub fn put(&self, name: &str, bytes: impl AsRef<[u8]>) {
        fs::write(self.path(name), bytes).expect("a file");
    }

    /// The names of what is there.
    pub fn names(&self) -> Vec<String> {
        let entries = fs::read_dir(&self.0).expect("the folder");
        let name = |entry: std::io::Result<fs::DirEntry>| entry.expect("a name").file_name();
        let mut names: Vec<String> = entries
            .map(|entry| name(entry).into_string().expect("text"))
            .collect();
        names.sort();
        names
    }

    fn command(&self, words: &[&str]) -> Command {
        let mut command = Command::new(program());
        command.args(words.iter().map(OsStr::new));
        command.current_dir(&self.0);
        command
    }

    /// The program, started, with its input written and ended.
    pub fn start(&self, words: &[&str], input: &str) -> Child {
        let mut command = self.command(words);
        command.stdin(Stdio::piped());
        command.stdout(Stdio::piped()).stderr(Stdio::piped());
        let path = program();
        let mut child = command.spawn().unwrap_or_else(|error| {
            panic!("{}: {error}; ./test builds it", path.display());
        });
        let mut pipe = child.stdin.take().expect("a pipe");
        // one that ends before it reads is as good
        let _ = pipe.write_all(input.as_bytes());
        child
    }

    pub fn run_with(&self, words: &[&str], input: &str) -> Said {
        let output = self
            .start(words, input)
            .wait_with_output()
            .expect("its end");
        Said {
            status: output.status.code().expect("an exit status"),
            out: String::from_utf8(output.stdout).expect("text"),
            err: String::from_utf8(output.stderr).expect("text"),
        }
    }

    pub fn run(&self, words: &[&str]) -> Said {
        self.run_with(words, "")
    }

    /// What a command that is done writes.
    pub fn done(&self, words: &[&str], input: &str) -> String {
        let said = self.run_with(words, input);
        assert_eq!((said.status, &said.err[..]), (0, ""), "{words:?}");
        said.out
    }

    /// A command that is refused with this status and a sentence that holds these
    /// words, and leaves every file as it was.
    pub fn refused(&self, words: &[&str], input: &str, status: i32, sentence: &str) {
        let before: Vec<(String, Option<Vec<u8>>)> = self.files();
        let said = self.run_with(words, input);
        assert_eq!(said.status, status, "{words:?}: {}", said.err);
        assert!(said.err.starts_with("rcst: "), "{words:?}: {}", said.err);
        assert!(said.err.contains(sentence), "{words:?}: {}", said.err);
        assert_eq!(said.out, "", "{words:?}");
        assert!(self.files() == before, "{words:?}: a file has changed");
    }

    /// Texts from which `load` makes no store, each with its status and words; HEAD
    /// stands for the first lines.
    pub fn loads_none(&self, head: &str, texts: &[(&str, i32, &str)]) {
        for (text, status, sentence) in texts {
            let text = text.replace("HEAD", head);
            self.refused(&["load", "t"], &text, *status, sentence);
        }
    }

    fn files(&self) -> Vec<(String, Option<Vec<u8>>)> {
        let names = self.names().into_iter();
        names
            .map(|name| (name.clone(), fs::read(self.path(&name)).ok()))
            .collect()
    }

    /// Runs a script in the folder, with the program first in the path as `rcst`.
    pub fn script(&self, script: &str) -> Said {
        let bin = self.path(".bin");
        if !bin.exists() {
            fs::create_dir(&bin).expect("a folder");
            let absolute = fs::canonicalize(program()).expect("the program");
            std::os::unix::fs::symlink(absolute, bin.join("rcst")).expect("a link");
        }
        let path = std::env::var("PATH").expect("a path");
        let output = Command::new("sh")
            .args(["-c", script])
            .current_dir(&self.0)
            .env("PATH", format!("{}:{path}", bin.display()))
            .stdin(Stdio::null())
            .output()
            .expect("a shell");
        Said {
            status: output.status.code().unwrap_or(-1),
            out: String::from_utf8_lossy(&output.stdout).into(),
            err: String::from_utf8_lossy(&output.stderr).into(),
        }
    }
}

impl Drop for Folder {
    fn drop(&mut self) {
        let _ = fs::remove_dir_all(&self.0);
    }
}

/// How often something is done: what the variable says, else this often.
pub fn times(variable: &str, usual: usize) -> usize {
    let said = std::env::var(variable).ok();
    said.map_or(usual, |said| said.parse().expect("a number"))
}

/// The repository.
pub fn root() -> PathBuf {
    Path::new(env!("CARGO_MANIFEST_DIR")).join("../..")
}

//! Killed at any moment the file is the old store or the new one, sound, with no
//! update open. `RCST_KILLS` says how often it is tried, a thousand times if unset.

use std::time::{Duration, Instant};

use reference::rng::Rng;
use reference::{check, store};
use tool::{times, Folder};

/// How long the program takes when nobody kills it.
fn whole(folder: &Folder, words: &[&str], input: &str) -> Duration {
    let start = Instant::now();
    folder.run_with(words, input);
    start.elapsed()
}

fn killed(folder: &Folder, words: &[&str], input: &str, after: Duration) {
    let mut child = folder.start(words, input);
    std::thread::sleep(after);
    let _ = child.kill();
    child.wait().expect("its end");
}

/// Kills the program so long after it began to write the file beside the store;
/// whether that file is left.
fn killed_writing(folder: &Folder, words: &[&str], input: &str, after: Duration) -> bool {
    let mut child = folder.start(words, input);
    let beside = folder.path("s.rcst-new");
    while !beside.exists() && child.try_wait().expect("a child").is_none() {
        std::thread::sleep(Duration::from_micros(20));
    }
    std::thread::sleep(after);
    let _ = child.kill();
    child.wait().expect("its end");
    std::fs::remove_file(beside).is_ok()
}

/// A writer: the edition of its store, its words and its input.
struct Writer {
    edition: &'static str,
    words: &'static [&'static str],
    input: String,
}

fn writers() -> [Writer; 2] {
    let writer = |edition, words, input| Writer {
        edition,
        words,
        input,
    };
    [
        writer("1", &["apply", "s"], changes(3)),
        writer("2", &["prune", "s", "2"], String::new()),
    ]
}

impl Writer {
    /// A store of three releases, and the store behind the writer.
    fn stores(&self, folder: &Folder) -> (Vec<u8>, Vec<u8>) {
        let _ = std::fs::remove_file(folder.path("s"));
        folder.done(&["new", "s", "64", "--edition", self.edition], "");
        for release in 0..3 {
            folder.done(&["apply", "s"], &changes(release));
        }
        let before = folder.bytes("s");
        folder.done(self.words, &self.input);
        let after = folder.bytes("s");
        assert!(before != after, "{:?}", self.words);
        (before, after)
    }
}

/// Whether the file is the new store; else it is the old one.
fn is_new(folder: &Folder, before: &[u8], after: &[u8], time: usize) -> bool {
    let bytes = folder.bytes("s");
    assert!(
        bytes == before || bytes == after,
        "kill {time}: neither old nor new"
    );
    assert_eq!(check::judge(&bytes), (0, 0), "kill {time}");
    assert!(!store::header(&bytes).open, "kill {time}");
    bytes == after
}

#[test]
fn old_or_new() {
    let folder = Folder::new();
    for writer in writers() {
        let (before, after) = writer.stores(&folder);
        let (words, input) = (writer.words, &writer.input[..]);
        folder.put("s", &before);
        let took = whole(&folder, words, input);
        let mut rng = Rng::new(28);
        let mut seen = [0, 0];
        // fewer might all come too early
        for time in 0..(times("RCST_KILLS", 1000) / 4).max(30) {
            folder.put("s", &before);
            let part = f64::from(rng.below(1300)) / 1000.0;
            killed(&folder, words, input, took.mul_f64(part));
            seen[usize::from(is_new(&folder, &before, &after, time))] += 1;
        }
        println!("{}: old {}, new {}", words[0], seen[0], seen[1]);
        assert!(seen.iter().all(|count| *count > 0), "{seen:?}");
        // what a killed program left beside the store is in nobody's way
        folder.put("s", &before);
        folder.done(words, input);
        assert_eq!(folder.bytes("s"), after);
        assert_eq!(folder.names(), ["s"]);
    }
}

/// From the moment on at which there is something to lose.
#[test]
fn old_or_new_while_it_is_written() {
    let folder = Folder::new();
    for writer in writers() {
        let (before, after) = writer.stores(&folder);
        let (words, input) = (writer.words, &writer.input[..]);
        let mut rng = Rng::new(30);
        let (mut new, mut left) = (0, 0);
        for time in 0..times("RCST_KILLS", 1000) / 4 {
            folder.put("s", &before);
            let pause = Duration::from_micros(u64::from(rng.below(1500)));
            left += usize::from(killed_writing(&folder, words, input, pause));
            new += usize::from(is_new(&folder, &before, &after, time));
        }
        println!("{}: new {new}, killed before the rename {left}", words[0]);
        assert!(left > 0, "{}", words[0]);
    }
}

#[test]
fn nothing_or_a_whole_store() {
    let folder = Folder::new();
    let took = whole(&folder, &["new", "s", "4096"], "");
    let fresh = folder.bytes("s");
    let mut rng = Rng::new(29);
    for time in 0..times("RCST_KILLS", 1000) / 5 {
        let _ = std::fs::remove_file(folder.path("s"));
        let part = f64::from(rng.below(1300)) / 1000.0;
        killed(&folder, &["new", "s", "4096"], "", took.mul_f64(part));
        if folder.path("s").exists() {
            assert!(folder.bytes("s") == fresh, "kill {time}: half a store");
        }
    }
}

/// The lines of a release that rebuilds many pages.
fn changes(release: u32) -> String {
    (0..40)
        .map(|key| format!("set {} {}\n", 3 * key, key + release))
        .collect()
}

/// Writers at the same time: each makes its release, and none is lost.
#[test]
fn writers_wait_for_each_other() {
    let folder = Folder::new();
    folder.done(&["new", "s", "64"], "");
    let children: Vec<_> = (0..12)
        .map(|key| folder.start(&["apply", "s"], &format!("set {key} 1\n")))
        .collect();
    let readers: Vec<_> = (0..4).map(|_| folder.start(&["check", "s"], "")).collect();
    for child in readers.into_iter().chain(children) {
        let output = child.wait_with_output().expect("its end");
        assert!(
            output.status.success(),
            "{}",
            String::from_utf8_lossy(&output.stderr)
        );
    }
    let info = folder.done(&["info", "s"], "");
    assert!(info.contains("version 12, with 12 settings\n"), "{info}");
    assert_eq!(folder.names(), ["s"]);
}

//! Programs on equal lines, in turn. A time is the processor time of a whole program, from its start to its end.

use std::fs::File;
use std::path::{Path, PathBuf};
use std::process::{Command, Output, Stdio};

use hostile::measure::{in_turn_outside, Times};

pub fn start(program: &[&Path], lines: &Path, output: Stdio) -> Output {
    let input = File::open(lines).expect("the lines");
    let mut command = Command::new(program[0]);
    command.args(&program[1..]).stdin(input).stdout(output);
    let ended = command.output().expect("the program starts");
    assert!(ended.status.success(), "{program:?}");
    ended
}

/// The lines in a file.
pub fn written(name: &str, lines: &[u8]) -> PathBuf {
    let name = format!("rcst-morning-{}-{name}", std::process::id());
    let path = std::env::temp_dir().join(name);
    std::fs::write(&path, lines).expect("a file for the lines");
    path
}

pub struct Programs(pub Vec<PathBuf>);

impl Programs {
    /// Whether all of them answer the lines alike.
    pub fn equal(&self, lines: &Path) -> bool {
        let answers = |program: &PathBuf| start(&[program], lines, Stdio::piped()).stdout;
        let first = answers(&self.0[0]);
        self.0[1..].iter().all(|program| answers(program) == first)
    }

    /// The first ways are the programs on the first file, then come the same on the second, and so on.
    pub fn timed(&self, files: &[PathBuf]) -> Times {
        let way = |program: &Path, file: &Path| start(&[program], file, Stdio::null()).stderr.len();
        let pairs = files
            .iter()
            .flat_map(|file| self.0.iter().map(move |program| (program, file)));
        let mut ways: Vec<_> = pairs
            .map(|(program, file)| move || way(program, file) as u64)
            .collect();
        let mut ways: Vec<&mut dyn FnMut() -> u64> =
            ways.iter_mut().map(|way| way as &mut _).collect();
        in_turn_outside(&mut ways)
    }
}

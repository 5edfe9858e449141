//! `mixes FOLDER` writes the lines of each mix of updates to a file of its name.

use std::path::PathBuf;

use morning::mix::{Mix, KINDS};

fn main() {
    let folder: PathBuf = std::env::args_os().nth(1).expect("a folder").into();
    for (name, kind) in KINDS {
        let mix = Mix::new(kind, 1);
        std::fs::write(folder.join(name), mix.lines).expect("a file for the lines");
    }
}

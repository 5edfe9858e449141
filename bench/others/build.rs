//! Finds out which of SQLite and LMDB can be linked here (Debian: libsqlite3-dev, liblmdb-dev): `cfg(sqlite)`, `cfg(lmdb)`.

use std::env;
use std::path::Path;
use std::process::{Command, Stdio};

/// Whether an empty program links with the library.
fn links(library: &str) -> bool {
    let out = env::var("OUT_DIR").expect("cargo sets it");
    let source = Path::new(&out).join("empty.c");
    std::fs::write(&source, "int main(void) { return 0; }\n").expect("a file");
    let mut cc = Command::new("cc");
    cc.arg(&source).arg("-o").arg(source.with_extension("out"));
    let ended = cc.arg(library).stderr(Stdio::null()).status();
    ended.is_ok_and(|status| status.success())
}

fn main() {
    // a folder that is never there: what is installed is asked at every build
    println!("cargo:rerun-if-changed=never");
    for (name, library) in [("sqlite", "-lsqlite3"), ("lmdb", "-llmdb")] {
        println!("cargo:rustc-check-cfg=cfg({name})");
        if links(library) {
            println!("cargo:rustc-cfg={name}");
            println!("cargo:rustc-link-arg-bin={name}={library}");
        }
    }
}

//! Links the proved libraries that are measured beside the offered one: as `rt lib` writes them, or, on
//! another processor than x86-64, `bench/native`.

use std::path::Path;

fn main() {
    let here = std::env::var("CARGO_MANIFEST_DIR").expect("cargo sets it");
    let own = std::env::var("CARGO_CFG_TARGET_ARCH").expect("cargo sets it");
    let made = if own == "x86_64" {
        "staticlib"
    } else {
        "native"
    };
    let folder = Path::new(&here).join("../target").join(made);
    println!("cargo:rustc-link-search=native={}", folder.display());
    for name in ["gauge", "morning"] {
        println!("cargo:rustc-link-lib=static={name}");
        let library = folder.join(format!("lib{name}.a"));
        println!("cargo:rerun-if-changed={}", library.display());
    }
}

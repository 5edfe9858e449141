//! Links librcst.a: from the folder that `RCST_LIB` names, else from where this
//! repository's `./build` writes it.

use std::env;
use std::path::{Path, PathBuf};

fn main() {
    println!("cargo:rerun-if-env-changed=RCST_LIB");
    let folder = match env::var_os("RCST_LIB") {
        Some(folder) => PathBuf::from(folder),
        None => {
            let here = env::var("CARGO_MANIFEST_DIR").expect("cargo sets it");
            Path::new(&here).join("../../target/staticlib")
        }
    };
    println!("cargo:rustc-link-search=native={}", folder.display());
    println!("cargo:rustc-link-lib=static=rcst");
    let library = folder.join("librcst.a");
    println!("cargo:rerun-if-changed={}", library.display());
}

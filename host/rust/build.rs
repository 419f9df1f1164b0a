//! Says where libends_export.a is: in the folder that LINK_LIBRARY names, else where `tools/library ends_export` writes it.
use std::env;
use std::path::{Path, PathBuf};

fn main() {
    let here = env::var("CARGO_MANIFEST_DIR").expect("cargo names the package's folder");
    let written = Path::new(&here).join("../../target/staticlib");
    let folder = env::var("LINK_LIBRARY").map_or(written, PathBuf::from);
    let library = folder.join("libends_export.a");
    println!("cargo::rerun-if-env-changed=LINK_LIBRARY");
    println!("cargo::rerun-if-changed={}", library.display());
    if !library.is_file() {
        println!("cargo::error=no {}", library.display());
        println!("cargo::error=make it with `tools/library ends_export`, or name its folder in LINK_LIBRARY");
    }
    println!("cargo::rustc-link-search=native={}", folder.display());
    println!("cargo::rustc-link-lib=static=ends_export");
}

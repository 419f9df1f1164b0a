//! Links the static library that `tools/library runs_export` wrote, and links again where it has changed.

fn main() {
    let folder = concat!(env!("CARGO_MANIFEST_DIR"), "/../../target/staticlib");
    println!("cargo:rustc-link-search=native={folder}");
    println!("cargo:rustc-link-lib=static=runs_export");
    println!("cargo:rerun-if-changed={folder}/libruns_export.a");
}

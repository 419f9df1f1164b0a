//! The scripts of `crates/vectors_test/data` give their listings.

use std::fs;
use std::path::Path;

#[test]
fn every_script_gives_its_listing() {
    let folder = Path::new(env!("CARGO_MANIFEST_DIR")).join("../../crates/vectors_test/data");
    let mut passed = 0;
    for entry in fs::read_dir(folder).expect("the folder of vectors") {
        let path = entry.expect("a file").path();
        if path.extension().is_none_or(|kind| kind != "plrn") {
            continue;
        }
        let script = fs::read(&path).expect("a script");
        let wanted = fs::read_to_string(path.with_extension("txt")).expect("its listing");
        assert!(model::listing::listing(&script) == wanted, "{} differs", path.display());
        passed += 1;
    }
    assert_eq!(passed, 59);
}

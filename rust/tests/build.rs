//! What build.rs says where it cannot link the archive.

#[path = "../build.rs"]
#[allow(dead_code)]
mod build;

use build::{missing, other_target};
use std::path::Path;

#[test]
fn another_target_is_named() {
    assert_eq!(other_target("x86_64", "linux", "64"), None);
    for (arch, os, width) in [
        ("aarch64", "linux", "64"),
        ("x86", "linux", "32"),
        ("x86_64", "linux", "32"),
        ("x86_64", "windows", "64"),
        ("x86_64", "macos", "64"),
    ] {
        let words = other_target(arch, os, width).unwrap();
        assert!(
            words.starts_with("libfetulombo.a is for x86-64 Linux"),
            "{words}"
        );
        assert!(
            words.contains(&format!("{arch}, {os}, {width} bits")),
            "{words}"
        );
    }
}

#[test]
fn a_missing_archive_is_named() {
    let here = Path::new(env!("CARGO_MANIFEST_DIR"));
    assert_eq!(missing(&here.join("build.rs")), None);
    let words = missing(&here.join("nowhere/libfetulombo.a")).unwrap();
    assert!(words.ends_with(
        "nowhere/libfetulombo.a is missing: run `make archive` first, or set FETULOMBO_LIB to its folder"
    ));
}

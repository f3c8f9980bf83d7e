//! Links libfetulombo.a: from the folder that FETULOMBO_LIB names, or from where `make archive`
//! leaves it.

use std::env;
use std::path::{Path, PathBuf};

fn main() {
    println!("cargo:rerun-if-env-changed=FETULOMBO_LIB");
    let target = |name: &str| env::var(name).expect("cargo sets it");
    let (arch, os) = ("CARGO_CFG_TARGET_ARCH", "CARGO_CFG_TARGET_OS");
    let width = "CARGO_CFG_TARGET_POINTER_WIDTH";
    if let Some(words) = other_target(&target(arch), &target(os), &target(width)) {
        panic!("{words}");
    }
    let folder = match env::var_os("FETULOMBO_LIB") {
        Some(folder) => PathBuf::from(folder),
        None => {
            let here = env::var_os("CARGO_MANIFEST_DIR").expect("cargo sets it");
            PathBuf::from(here).join("../target/staticlib")
        }
    };
    let archive = folder.join("libfetulombo.a");
    println!("cargo:rerun-if-changed={}", archive.display());
    if let Some(words) = missing(&archive) {
        panic!("{words}");
    }
    println!("cargo:rustc-link-search=native={}", folder.display());
    println!("cargo:rustc-link-lib=static=fetulombo");
}

/// What to say of a target for which there is no archive.
pub fn other_target(arch: &str, os: &str, width: &str) -> Option<String> {
    let ours = (arch, os, width) == ("x86_64", "linux", "64");
    (!ours).then(|| {
        format!(
            "libfetulombo.a is for x86-64 Linux with pointers of 64 bits, and this build is for \
             {arch}, {os}, {width} bits: build for x86_64-unknown-linux-gnu, and run under an \
             emulator where the machine is another"
        )
    })
}

/// What to say where there is no archive.
pub fn missing(archive: &Path) -> Option<String> {
    (!archive.exists()).then(|| {
        format!(
            "{} is missing: run `make archive` first, or set FETULOMBO_LIB to its folder",
            archive.display()
        )
    })
}

//! Tells the linker where `make archive`, run at the repository's root, puts the archive, and
//! prepares the archive of another version for the benchmark, if the variable `BEFORE` names one.

use std::env;
use std::path::Path;
use std::process::Command;

/// The functions of the other version that the benchmark calls.
const BEFORE: [&str; 2] = ["read", "judge"];

fn main() {
    let package = env::var("CARGO_MANIFEST_DIR").expect("cargo names the package's folder");
    let folder = Path::new(&package).join("../target/staticlib");
    let archive = folder.join("liblitmus.a");
    if !archive.exists() {
        println!(
            "cargo:warning=no {}: run `make archive` first",
            archive.display()
        );
    }
    println!("cargo:rustc-link-search=native={}", folder.display());
    println!("cargo:rerun-if-changed={}", archive.display());
    println!("cargo:rerun-if-changed=build.rs");
    println!("cargo:rerun-if-env-changed=BEFORE");
    println!("cargo:rustc-check-cfg=cfg(before)");
    match env::var("BEFORE") {
        Ok(other) if !other.is_empty() => link_before(&other),
        _ => {}
    }
}

/// Copies an archive: `litmus_X` of the functions above becomes `litmus_before_X`, and nothing else of
/// it can be seen from outside, so that two versions can be linked into one program.
fn link_before(archive: &str) {
    let folder = env::var("OUT_DIR").expect("cargo names a folder");
    let mut objcopy = Command::new("objcopy");
    for name in BEFORE {
        objcopy.arg(format!("--redefine-sym=litmus_{name}=litmus_before_{name}"));
        objcopy.arg(format!("--keep-global-symbol=litmus_before_{name}"));
    }
    objcopy.arg(archive);
    objcopy.arg(Path::new(&folder).join("liblitmus_before.a"));
    let status = objcopy.status().expect("objcopy starts");
    assert!(status.success(), "no archive: {archive}");
    println!("cargo:rustc-link-search=native={folder}");
    println!("cargo:rerun-if-changed={archive}");
    println!("cargo:rustc-cfg=before");
}

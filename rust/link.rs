// Shared by the build scripts that link proved functions: `include!("../link.rs")`.

use std::env;
use std::path::Path;

/// Links target/staticlib/libNAME.a, which `tools/build NAME` writes, for each of these proved crates.
fn link(crates: &[&str]) {
    let package = env::var("CARGO_MANIFEST_DIR").expect("cargo names the package's folder");
    let root = Path::new(&package).ancestors().nth(2).expect("the package stands in the repository's folder rust");
    let folder = root.join("target/staticlib");
    println!("cargo::rustc-link-search=native={}", folder.display());
    for name in crates {
        let archive = folder.join(format!("lib{name}.a"));
        println!("cargo::rerun-if-changed={}", archive.display());
        if archive.is_file() {
            println!("cargo::rustc-link-lib=static={name}");
        } else {
            println!("cargo::error={} is missing: run `tools/build {name}` first", archive.display());
        }
    }
}

//! Links the engine's archives, which `make archives` writes.

use std::env;
use std::path::PathBuf;

fn main() {
    let here = env::var_os("CARGO_MANIFEST_DIR").expect("cargo sets it");
    let target = PathBuf::from(here).join("../target");
    println!("cargo::rerun-if-changed=build.rs");
    for (folder, name) in [("", "zirwennach"), ("staticlib", "probes")] {
        let folder = target.join(folder);
        let archive = folder.join(format!("lib{name}.a"));
        println!("cargo::rustc-link-search=native={}", folder.display());
        println!("cargo::rerun-if-changed={}", archive.display());
        println!("cargo::rustc-link-lib=static={name}");
        if !archive.exists() {
            println!("cargo::error=lib{name}.a is missing: run `make archives` first");
        }
    }
}

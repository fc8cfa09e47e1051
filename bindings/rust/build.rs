//! Links the archive that `tools/archives host` writes, and with the feature `card` that of `tools/archives card`; STATICLIB_DIR
//! names another folder.

use std::env;
use std::path::{Path, PathBuf};

fn main() {
    println!("cargo::rerun-if-changed=build.rs");
    println!("cargo::rerun-if-env-changed=STATICLIB_DIR");
    let built = || Path::new(env!("CARGO_MANIFEST_DIR")).join("../../target/staticlib");
    let folder = env::var_os("STATICLIB_DIR").map_or_else(built, PathBuf::from);
    println!("cargo::rustc-link-search=native={}", folder.display());
    link(&folder, "host");
    if env::var_os("CARGO_FEATURE_CARD").is_some() {
        link(&folder, "card");
    }
}

fn link(folder: &Path, name: &str) {
    let archive = folder.join(format!("lib{name}.a"));
    println!("cargo::rerun-if-changed={}", archive.display());
    if !archive.exists() {
        let archive = archive.display();
        println!("cargo::error=there is no {archive}: run `tools/archives {name}`");
        return;
    }
    println!("cargo::rustc-link-lib=static={name}");
}

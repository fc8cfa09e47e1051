//! Links the archive that `tools/archives card` writes; STATICLIB_DIR names another folder.

use std::env;
use std::path::{Path, PathBuf};

fn main() {
    println!("cargo::rerun-if-changed=build.rs");
    println!("cargo::rerun-if-env-changed=STATICLIB_DIR");
    if env::var_os("CARGO_FEATURE_PROVED").is_none() {
        return;
    }
    let built = || Path::new(env!("CARGO_MANIFEST_DIR")).join("../../target/staticlib");
    let folder = env::var_os("STATICLIB_DIR").map_or_else(built, PathBuf::from);
    let archive = folder.join("libcard.a");
    println!("cargo::rerun-if-changed={}", archive.display());
    if !archive.exists() {
        let archive = archive.display();
        println!("cargo::error=there is no {archive}: run `tools/archives card`");
        return;
    }
    println!("cargo::rustc-link-search=native={}", folder.display());
    println!("cargo::rustc-link-lib=static=card");
}

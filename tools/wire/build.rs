//! Links the archive that `tools/archives wire` writes, or with `counters` that of `wire_counters`; with `host` that of
//! `host` too.

use std::env;
use std::path::{Path, PathBuf};

fn main() {
    println!("cargo::rerun-if-changed=build.rs");
    println!("cargo::rerun-if-env-changed=STATICLIB_DIR");
    let is_set = |feature: &str| env::var_os(format!("CARGO_FEATURE_{feature}")).is_some();
    let whole = if is_set("COUNTERS") {
        "wire_counters"
    } else {
        "wire"
    };
    let wanted = [(is_set("LINKED"), whole), (is_set("HOST"), "host")];
    for (_, name) in wanted.into_iter().filter(|(wanted, _)| *wanted) {
        link(name);
    }
}

fn link(name: &str) {
    let built = || Path::new(env!("CARGO_MANIFEST_DIR")).join("../../target/staticlib");
    let folder = env::var_os("STATICLIB_DIR").map_or_else(built, PathBuf::from);
    let archive = folder.join(format!("lib{name}.a"));
    println!("cargo::rerun-if-changed={}", archive.display());
    if !archive.exists() {
        let archive = archive.display();
        println!("cargo::error=there is no {archive}: run `tools/archives {name}`");
        return;
    }
    println!("cargo::rustc-link-search=native={}", folder.display());
    println!("cargo::rustc-link-lib=static={name}");
}

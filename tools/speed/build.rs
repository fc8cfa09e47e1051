//! Links what is timed: the archives (tools/archives) of the ring's loop, of those over a lent runtime, of the functions over
//! lent words and of those of the card, and the object of tools/speed/object; the crate `wire` links its own. STATICLIB_DIR
//! names another folder of archives.

use std::env;
use std::path::{Path, PathBuf};

fn main() {
    println!("cargo::rerun-if-changed=build.rs");
    println!("cargo::rerun-if-env-changed=STATICLIB_DIR");
    let target = Path::new(env!("CARGO_MANIFEST_DIR")).join("../../target");
    let folder =
        env::var_os("STATICLIB_DIR").map_or_else(|| target.join("staticlib"), PathBuf::from);
    println!("cargo::rustc-link-search=native={}", folder.display());
    for name in ["receipts_speed", "lent_speed", "host", "card"] {
        let archive = folder.join(format!("lib{name}.a"));
        println!("cargo::rerun-if-changed={}", archive.display());
        println!("cargo::rustc-link-lib=static={name}");
    }
    let object = target.join("speed/lent/apart.o");
    println!("cargo::rerun-if-changed={}", object.display());
    println!("cargo::rustc-link-arg={}", object.display());
}

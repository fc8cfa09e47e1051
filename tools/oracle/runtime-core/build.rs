//! Takes the original's sources from their folder, byte for byte, so that nothing of them
//! stands in this repository.

use std::path::{Path, PathBuf};
use std::{env, fs};

const SOURCES: [&str; 3] = ["model.rs", "profile.rs", "runtime.rs"];
const DEFAULT_FOLDER: &str = "../../../../shared/docs/src/crates/runtime-core/src";

fn main() {
    println!("cargo::rerun-if-changed=build.rs");
    println!("cargo::rerun-if-changed=src/tests.rs");
    println!("cargo::rerun-if-env-changed=RUNTIME_CORE_SRC");
    println!("cargo::rustc-check-cfg=cfg(kani)");

    let manifest = PathBuf::from(variable("CARGO_MANIFEST_DIR"));
    let out = PathBuf::from(variable("OUT_DIR"));
    let folder = match env::var_os("RUNTIME_CORE_SRC") {
        Some(folder) => PathBuf::from(folder),
        None => manifest.join(DEFAULT_FOLDER),
    };
    for name in SOURCES {
        let source = folder.join(name);
        println!("cargo::rerun-if-changed={}", source.display());
        copy(&source, &out.join(name));
    }
    copy(&manifest.join("src/tests.rs"), &out.join("tests.rs"));
    write(&out.join("root.rs"), root(&out).as_bytes());
    if env::var_os("CARGO_FEATURE_COUNTERS").is_some() {
        println!("cargo::rustc-cfg=test");
    }
}

/// The crate root that the sources expect: `use crate::*` has to find all of them.
fn root(out: &Path) -> String {
    let module = |name: &str| format!("#[path = {:?}]\n", out.join(name));
    format!(
        "{}mod model;\npub use model::*;\n{}pub mod profile;\n{}mod runtime;\npub use runtime::*;\n",
        module("model.rs"),
        module("profile.rs"),
        module("runtime.rs"),
    )
}

fn variable(name: &str) -> String {
    env::var(name).unwrap_or_else(|e| fail(&format!("{name}: {e}")))
}

/// Reads and writes, because a plain copy would keep a read-only mode.
fn copy(from: &Path, to: &Path) {
    let bytes = fs::read(from).unwrap_or_else(|e| {
        fail(&format!(
            "cannot read {}: {e}; set RUNTIME_CORE_SRC to the folder with {}",
            from.display(),
            SOURCES.join(", "),
        ))
    });
    write(to, &bytes);
}

fn write(to: &Path, bytes: &[u8]) {
    if let Err(e) = fs::write(to, bytes) {
        fail(&format!("cannot write {}: {e}", to.display()));
    }
}

fn fail(message: &str) -> ! {
    println!("cargo::error={message}");
    std::process::exit(1);
}

//! The vectors of crates/card_main.

use card::document::tails;
use card::functions::{END, READ};
use card::vectors::vectors;
use std::fs;
use std::path::PathBuf;
use std::process::Command;

const STDIN: &str = include_str!("../../../crates/card_main/stdin");
const STDOUT: &str = include_str!("../../../crates/card_main/stdout");

/// What is stored is what is made.
#[test]
fn the_stored_vectors_are_made() {
    let vectors = vectors();
    assert_eq!(STDIN, vectors.stdin);
    assert_eq!(STDOUT, vectors.stdout);
}

/// How each file ends, those of the document by its own answers; and what is read is written again.
#[test]
fn how_the_files_end() {
    let heads = ["121 at 0", "121 at 0", "121 at 0", "1 at 4", "1 at 151"];
    let mut ends: Vec<String> = heads.map(String::from).into();
    ends.extend(tails().iter().map(|tail| match tail.answer {
        READ => format!("{END} at {}", 4 + tail.bytes.len()),
        answer => format!("{answer} at 4"),
    }));
    ends.extend(["1 at 616", "1 at 133", "122 at 54", "123 at 54"].map(String::from));
    let printed = STDOUT.lines();
    let (receipts, printed): (Vec<&str>, Vec<&str>) = printed.partition(|l| l.starts_with('r'));
    assert_eq!(printed, ends);
    assert_eq!(STDIN.lines().count(), ends.len());
    assert!(receipts.len() > 50 && receipts.iter().all(|l| l.ends_with(" same")));
}

#[test]
fn the_program_writes_them() {
    let folder = PathBuf::from(env!("CARGO_TARGET_TMPDIR")).join("vectors");
    fs::create_dir_all(&folder).expect("a folder");
    let mut program = Command::new(env!("CARGO_BIN_EXE_card"));
    let status = program.arg("vectors").arg(&folder).status();
    assert!(status.expect("the program runs").success());
    for (name, text) in [("stdin", STDIN), ("stdout", STDOUT)] {
        let written = fs::read_to_string(folder.join(name));
        assert_eq!(written.expect("a file"), text);
    }
}

//! The program: its arguments, and what it says without an archive.

use std::process::{Command as Process, Output};
use wire::options::{Command, Many};

fn read(line: &str) -> Option<Command> {
    Command::read(line.split_whitespace().map(String::from))
}

#[test]
fn arguments() {
    let many = Many {
        seed: 1,
        calls: 5,
        threads: None,
        counters: false,
    };
    assert_eq!(
        read("compare --seed 1 --calls 5"),
        Some(Command::Compare(many))
    );
    assert_eq!(read("count --calls 5 --seed 1"), Some(Command::Count(many)));
    assert_eq!(read("step --seed 1 --calls 5"), Some(Command::Step(many)));
    let more = Many {
        threads: Some(3),
        counters: true,
        ..many
    };
    let line = "compare --seed 1 --calls 5 --counters --threads 3";
    assert_eq!(read(line), Some(Command::Compare(more)));
    let vectors = Command::Vectors {
        seed: 1,
        lives: 2,
        folder: "folder".into(),
    };
    assert_eq!(read("vectors --seed 1 --lives 2 folder"), Some(vectors));
    let check = Command::Check {
        folder: "folder".into(),
    };
    assert_eq!(read("check folder"), Some(check));
}

#[test]
fn bad_arguments() {
    for line in [
        "",
        "compare",
        "compare --seed 1",
        "compare --seed 1 --calls",
        "compare --seed 1 --calls -1",
        "compare --seed 1 --calls 5 --threads 0",
        "compare --seed 1 --seed 1 --calls 5",
        "compare --seed 1 --calls 5 folder",
        "compare --seed 1 --calls 5 --lives 2",
        "step --seed 1",
        "step --seed 1 --calls 5 --counters",
        "count --seed 1 --lives 5",
        "vectors --seed 1 --lives 5",
        "vectors --seed 1 --calls 5 folder",
        "vectors --seed 1 --lives 5 one two",
        "check",
        "check --seed 1 folder",
        "other --seed 1 --calls 5",
        "compare --seed 1 --calls 5 --other",
    ] {
        assert_eq!(read(line), None, "{line}");
    }
}

fn run(line: &str) -> Output {
    let mut program = Process::new(env!("CARGO_BIN_EXE_wire"));
    program.args(line.split_whitespace());
    program.output().expect("the program runs")
}

fn text(bytes: &[u8]) -> String {
    String::from_utf8_lossy(bytes).into_owned()
}

#[test]
fn it_says_how_it_is_used() {
    let run = run("other");
    assert_eq!(run.status.code(), Some(2));
    assert!(text(&run.stderr).starts_with("usage: wire compare"));
}

#[test]
fn it_counts() {
    let run = run("count --seed 1 --calls 2000 --threads 2");
    assert_eq!(run.status.code(), Some(0));
    let said = text(&run.stdout);
    assert!(said.contains("seed 1, 2"), "{said}");
    assert!(said.ends_with("nothing was compared\n"));
    assert!(!said.contains("NOT EXPECTED"), "{said}");
}

#[test]
fn counters_need_their_build() {
    let run = run("count --seed 1 --calls 100 --counters");
    let code = if oracle::HAS_COUNTERS { 0 } else { 2 };
    assert_eq!(run.status.code(), Some(code));
}

#[cfg(not(feature = "linked"))]
#[test]
fn nothing_is_compared_without_an_archive() {
    for line in ["compare --seed 1 --calls 100", "check folder"] {
        let run = run(line);
        assert_eq!(run.status.code(), Some(2));
        assert!(text(&run.stderr).contains("--features linked"));
    }
}

#[cfg(not(all(feature = "linked", feature = "host")))]
#[test]
fn nothing_is_stepped_without_the_archives() {
    let run = run("step --seed 1 --calls 100");
    assert_eq!(run.status.code(), Some(2));
    assert!(text(&run.stderr).contains("--features linked,host"));
}

#[cfg(all(feature = "linked", feature = "host", not(feature = "counters")))]
#[test]
fn it_steps_with_the_archives() {
    let run = run("step --seed 1 --calls 2000");
    let said = text(&run.stdout);
    assert_eq!(run.status.code(), Some(0), "{said}");
    assert!(said.ends_with(" passed, 0 failed\n"));
}

#[cfg(feature = "linked")]
#[test]
fn it_compares_with_the_archive() {
    let run = run("compare --seed 1 --calls 2000");
    let said = text(&run.stdout);
    assert_eq!(run.status.code(), Some(0), "{said}");
    assert!(said.ends_with(" passed, 0 failed\n"));
}

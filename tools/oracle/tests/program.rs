//! The program: its exit status, its messages, and the example of the README.

use std::io::Write;
use std::process::{Command, Output, Stdio};

fn oracle(arguments: &[&str], input: &str) -> Output {
    let mut child = Command::new(env!("CARGO_BIN_EXE_oracle"))
        .args(arguments)
        .stdin(Stdio::piped())
        .stdout(Stdio::piped())
        .stderr(Stdio::piped())
        .spawn()
        .expect("the program");
    let mut stdin = child.stdin.take().expect("its input");
    // A program that refuses its arguments does not read.
    let _ = stdin.write_all(input.as_bytes());
    drop(stdin);
    child.wait_with_output().expect("its output")
}

fn text(bytes: &[u8]) -> &str {
    std::str::from_utf8(bytes).expect("text")
}

#[test]
fn bad_arguments_give_the_usage() {
    let bad: [&[&str]; 10] = [
        &[],
        &["fly"],
        &["run"],
        &["run", "a", "b"],
        &["run", "--fast", "-"],
        &["random", "--seed", "1"],
        &["random", "--seed", "one", "--lives", "1"],
        &["random", "--seed", "1", "--seed", "1", "--lives", "1"],
        &["generate", "--lives", "1", "--seed"],
        &["generate", "--lives", "1", "--seed", "1", "--color", "3"],
    ];
    for arguments in bad {
        let output = oracle(arguments, "");
        assert_eq!(output.status.code(), Some(2), "{arguments:?}");
        assert!(text(&output.stderr).starts_with("usage: "), "{arguments:?}");
        assert!(output.stdout.is_empty());
    }
}

#[test]
fn a_bad_file_is_not_run_at_all() {
    let lives = "profile\nstart boot_id 42 now 0 flags 0\ntick now 1\ntick now x\n";
    let output = oracle(&["run", "-"], lives);
    assert_eq!(output.status.code(), Some(1));
    let expected = "standard input:4: `now`: `x` is not a number\n";
    assert_eq!(text(&output.stderr), expected);
    assert!(output.stdout.is_empty());

    let path = std::path::Path::new(env!("CARGO_TARGET_TMPDIR")).join("bad.life");
    std::fs::write(&path, [b"profile\n".as_slice(), &[0xff]].concat()).expect("a file");
    let path = path.to_str().expect("a name");
    let output = oracle(&["run", path], "");
    assert_eq!(output.status.code(), Some(1));
    assert_eq!(text(&output.stderr), format!("{path}:2: not UTF-8\n"));

    let output = oracle(&["run", "no such file"], "");
    assert_eq!(output.status.code(), Some(1));
    assert!(text(&output.stderr).starts_with("no such file: "));
}

#[test]
fn a_refused_start_is_shown_and_its_calls_skipped() {
    let lives = "profile\nstart boot_id 0 now 0 flags 0\ntick now 1\n";
    let output = oracle(&["run", "-"], lives);
    assert_eq!(output.status.code(), Some(0));
    let shown = text(&output.stdout);
    assert!(shown.ends_with("  answer 101 InvalidBootId\nskipped tick now 1\n"));
}

#[test]
fn generated_lives_can_be_run() {
    let arguments = ["generate", "--seed", "5", "--lives", "40", "--calls", "10"];
    let lives = oracle(&arguments, "");
    assert_eq!(lives.status.code(), Some(0));
    let output = oracle(&["run", "-"], text(&lives.stdout));
    assert_eq!(output.status.code(), Some(0));
    assert!(text(&output.stdout).contains("\nlife 40\n"));
    // A part of them is the same part.
    let part = [&arguments[..4], &["2", "--calls", "10", "--first", "38"]].concat();
    assert!(text(&lives.stdout).ends_with(text(&oracle(&part, "").stdout)));
}

#[test]
fn random_lives_are_counted() {
    let output = oracle(&["random", "--seed", "1", "--lives", "3"], "");
    assert_eq!(output.status.code(), Some(0));
    let shown = text(&output.stdout);
    assert!(shown.starts_with("lives 3 calls "));
    assert!(shown.contains("<-- HOLE"));
}

#[test]
fn hidden_fields_need_counters() {
    let output = oracle(&["run", "--hidden", "-"], "start boot_id 1 now 0 flags 0\n");
    let expected = if oracle::HAS_COUNTERS { 0 } else { 1 };
    assert_eq!(output.status.code(), Some(expected));
}

/// The text of the first block of the README that begins with this line.
fn block<'a>(readme: &'a str, first: &str) -> &'a str {
    let start = readme.find(first).expect("the block") + first.len();
    let end = readme[start..].find("```").expect("its end");
    &readme[start..start + end]
}

const README: &str = include_str!("../README.md");

#[test]
fn the_readme_shows_what_the_program_prints() {
    let output = oracle(&["run", "-"], block(README, "```life\n"));
    assert_eq!(output.status.code(), Some(0));
    assert_eq!(text(&output.stdout), block(README, "```output\n"));
}

#[test]
fn the_readme_shows_every_kind_of_line() {
    let mut lines: Vec<&str> = block(README, "```lines\n").lines().collect();
    lines.retain(|line| oracle::HAS_COUNTERS || !line.starts_with("set "));
    let lives = oracle::parse::parse(&lines.join("\n")).expect("a life");
    let calls = lives[0].steps.len();
    assert_eq!(calls, if oracle::HAS_COUNTERS { 10 } else { 9 });
}

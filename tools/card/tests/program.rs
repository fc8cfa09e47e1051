//! The program: its arguments, what it prints, and its exit status.

use card::options::Command;
use std::fs;
use std::path::PathBuf;
use std::process::{Command as Process, Output};

fn read(line: &str) -> Option<Command> {
    Command::read(line.split_whitespace().map(String::from))
}

fn run(line: &str) -> Output {
    let mut program = Process::new(env!("CARGO_BIN_EXE_card"));
    program.args(line.split_whitespace());
    program.output().expect("the program runs")
}

/// What it printed, and its exit status.
fn said(line: &str) -> (String, Option<i32>) {
    let run = run(line);
    let text = String::from_utf8_lossy(&run.stdout).into_owned();
    (text, run.status.code())
}

fn example(name: &str) -> String {
    format!("{}/../../examples/{name}", env!("CARGO_MANIFEST_DIR"))
}

/// A file of this test run, with these bytes.
fn scratch(name: &str, bytes: &[u8]) -> PathBuf {
    let file = PathBuf::from(env!("CARGO_TARGET_TMPDIR")).join(name);
    fs::write(&file, bytes).expect("a file");
    file
}

fn case_c() -> Vec<u8> {
    fs::read(example("c.card")).expect("a card")
}

const LINES: &str = "\
receipt 1  Control 24 LeaseGranted   principal 7  lease 1  axis 0  epoch 2
receipt 2  Executed 0 Ok             principal 7  action 1  sequence 1  capability 1  (300, -50) seen (300, -50)  at 10 ms
";

#[test]
fn arguments() {
    let write = Command::Write {
        life: "a.life".into(),
        file: "a.card".into(),
        append: true,
        rust: false,
    };
    assert_eq!(read("write a.life --append a.card"), Some(write));
    let show = Command::Show {
        file: "a.card".into(),
        csv: true,
        rust: true,
    };
    assert_eq!(read("show --rust a.card --csv"), Some(show));
    let (seed, records) = (1, 20_000);
    assert_eq!(read("compare"), Some(Command::Compare { seed, records }));
    let (seed, records) = (7, 9);
    let compare = read("compare --records 9 --seed 7");
    assert_eq!(compare, Some(Command::Compare { seed, records }));
    let folder = "a".into();
    assert_eq!(read("vectors a"), Some(Command::Vectors { folder }));
}

#[test]
fn bad_arguments() {
    for line in [
        "",
        "other",
        "write",
        "write a.life",
        "write a.life b c",
        "write a.life b --csv",
        "write a.life b --seed 1",
        "write a.life b --append --append",
        "show",
        "show a b",
        "show a b c",
        "show a --append",
        "show a --records 1",
        "show a --other",
        "compare a",
        "compare --rust",
        "compare --csv",
        "compare --seed",
        "compare --seed x",
        "vectors",
        "vectors a b",
        "vectors a b c",
        "vectors a --rust",
        "vectors a --append",
        "vectors a --csv",
        "vectors a --seed 1",
    ] {
        assert_eq!(read(line), None, "{line}");
    }
    let run = run("other");
    assert_eq!(run.status.code(), Some(2));
    assert!(String::from_utf8_lossy(&run.stderr).starts_with("usage: card write"));
}

#[test]
fn a_life_is_filed_and_shown() {
    let file = scratch("c.card", &[]);
    let line = format!("write {} {} --rust", example("c.life"), file.display());
    assert_eq!(said(&line), ("2 receipts, 151 bytes\n".into(), Some(0)));
    assert_eq!(fs::read(&file).expect("a card"), case_c());
    let shown = said(&format!("show {} --rust", file.display()));
    let whole = format!("{LINES}2 receipts, 151 bytes\n");
    assert_eq!(shown, (whole, Some(0)));
    // A card is not written over.
    assert_eq!(run(&line).status.code(), Some(2));
    assert_eq!(fs::read(&file).expect("a card"), case_c());
}

#[test]
fn another_life_is_added() {
    let file = scratch("added.card", &case_c());
    let life = scratch(
        "other.life",
        fs::read_to_string(example("c.life"))
            .expect("a life")
            .replace("boot_id 42", "boot_id 43")
            .as_bytes(),
    );
    let line = format!(
        "write --append {} {} --rust",
        life.display(),
        file.display()
    );
    assert_eq!(said(&line), ("4 receipts, 298 bytes\n".into(), Some(0)));
    let (shown, status) = said(&format!("show {} --rust", file.display()));
    assert_eq!(status, Some(0));
    // With two boot numbers, each line has its own.
    for (n, boot) in [(0, "  boot 42  "), (1, "  boot 42  "), (2, "  boot 43  ")] {
        let line = shown.lines().nth(n).expect("a line");
        assert!(line.contains(boot), "{line}");
    }
    assert_eq!(fs::read(&file).expect("a card")[..151], case_c());
}

#[test]
fn a_refused_card_stays_as_it_was() {
    let mut changed = case_c();
    changed[60] ^= 1;
    let cases = [
        (
            &case_c()[..100],
            "122 at byte 54: the record ends past the file; 1 receipt before it stands\n",
        ),
        (
            &[&case_c()[..], &[0; 3]].concat(),
            "123 at byte 151: the record is not sound; 2 receipts before it stand\n",
        ),
        (
            &changed,
            "123 at byte 54: the record is not sound; 1 receipt before it stands\n",
        ),
        (
            &case_c()[..3],
            "121 at byte 0: the head is wrong or short; 0 receipts before it stand\n",
        ),
        (
            &[],
            "121 at byte 0: the head is wrong or short; 0 receipts before it stand\n",
        ),
    ];
    for (n, (bytes, last)) in cases.into_iter().enumerate() {
        let file = scratch(&format!("refused{n}.card"), bytes);
        let name = file.display();
        let line = format!("write --append {} {name} --rust", example("c.life"));
        assert_eq!(said(&line), (last.into(), Some(1)));
        assert_eq!(fs::read(&file).expect("a card"), bytes);
        let (shown, status) = said(&format!("show {name} --rust"));
        assert!(shown.ends_with(last) && status == Some(1), "{shown}");
        let lines = shown.strip_suffix(last).expect("the last line");
        assert!(LINES.starts_with(lines), "{lines}");
    }
}

#[test]
fn a_table_for_a_spreadsheet() {
    let (table, status) = said(&format!("show {} --csv --rust", example("c.card")));
    assert_eq!(status, Some(0));
    let rows: Vec<Vec<&str>> = table.lines().map(|l| l.split(',').collect()).collect();
    assert!(rows.iter().all(|row| row.len() == 24), "{table}");
    assert_eq!(rows.len(), 3);
    let cell = |row: usize, name: &str| {
        let column = rows[0].iter().position(|cell| *cell == name);
        rows[row][column.expect("the column")]
    };
    assert_eq!(cell(1, "reason"), "24 LeaseGranted");
    assert_eq!(cell(2, "requested1"), "-50");
    assert_eq!(cell(2, "observed_valid"), "true");
    let cut = scratch("table.card", &case_c()[..150]);
    let run = run(&format!("show {} --csv --rust", cut.display()));
    assert_eq!(run.status.code(), Some(1));
    assert_eq!(String::from_utf8_lossy(&run.stdout).lines().count(), 2);
    assert!(String::from_utf8_lossy(&run.stderr).starts_with("122 at byte 54: "));
}

#[test]
fn what_is_missing_is_named() {
    let file = scratch("named.card", &case_c());
    let bad = scratch("bad.life", b"profile\nstrat\n");
    for (line, name) in [
        ("show none.card --rust".into(), "none.card"),
        (
            format!("write none.life {} --append --rust", file.display()),
            "none.life",
        ),
        (
            format!("write {} {} --append --rust", bad.display(), file.display()),
            "bad.life:2:",
        ),
        (
            format!("write {} none.card --append --rust", bad.display()),
            "none.card",
        ),
        ("vectors none".into(), "none/stdin"),
    ] {
        let run = run(&line);
        let said = String::from_utf8_lossy(&run.stderr).into_owned();
        assert_eq!(run.status.code(), Some(2), "{line}");
        assert!(said.contains(name), "{line}: {said}");
    }
    assert_eq!(fs::read(&file).expect("a card"), case_c());
}

/// Without the archives it says so; what it prints of a card is the same.
#[cfg(not(feature = "proved"))]
#[test]
fn without_the_proved_card() {
    assert_eq!(run("compare --records 1").status.code(), Some(2));
    let run = run(&format!("show {}", example("c.card")));
    assert_eq!(run.status.code(), Some(0));
    assert!(String::from_utf8_lossy(&run.stderr).contains("no proved card"));
}

#[cfg(feature = "proved")]
#[test]
fn with_the_proved_card() {
    let (compared, status) = said("compare --records 500");
    assert!(compared.ends_with(" passed, 0 failed\n"), "{compared}");
    assert_eq!(status, Some(0));
    let run = run(&format!("show {}", example("c.card")));
    assert_eq!((run.status.code(), run.stderr.len()), (Some(0), 0));
}

/// Without the proved runtime nothing is run but with --rust.
#[cfg(not(feature = "host"))]
#[test]
fn without_the_proved_runtime() {
    let file = scratch("unrun.card", &[]);
    let run = run(&format!("write {} {}", example("c.life"), file.display()));
    assert_eq!(run.status.code(), Some(2));
    assert!(String::from_utf8_lossy(&run.stderr).contains("--features host"));
}

#[cfg(feature = "host")]
#[test]
fn with_the_proved_runtime() {
    let file = scratch("proved.card", &[]);
    let line = format!("write {} {}", example("c.life"), file.display());
    assert_eq!(said(&line), ("2 receipts, 151 bytes\n".into(), Some(0)));
    assert_eq!(fs::read(&file).expect("a card"), case_c());
}

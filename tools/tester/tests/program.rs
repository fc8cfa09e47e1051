//! The program: its arguments, what it prints, and its exit status.

use std::path::PathBuf;
use std::process::{Command as Process, Output};
use tester::campaign::Campaign;
use tester::options::{Command, Task};
use tester::plant::Plant;

fn read(line: &str) -> Option<Command> {
    Command::read(line.split_whitespace().map(String::from))
}

#[test]
fn arguments() {
    let run = read("run a.life --svg a.svg --rust").expect("a command");
    let file = PathBuf::from("a.life");
    let counters = false;
    assert_eq!(run.task, Task::Run { file, counters });
    assert_eq!(run.svg, Some("a.svg".into()));
    assert!(run.rust);
    let cuts = read("cuts --lives 5 --plant again").expect("a command");
    assert_eq!(cuts.plant, Some(Plant::Again));
    let task = Task::Campaign {
        campaign: Campaign::Cuts,
        seed: 1,
        lives: 5,
        threads: None,
    };
    assert_eq!(cuts.task, task);
    for campaign in Campaign::ALL {
        assert!(read(campaign.name()).is_some());
    }
}

#[test]
fn bad_arguments() {
    for line in [
        "",
        "run",
        "run a b",
        "run a --seed 1",
        "run a --lives 1",
        "other",
        "cuts a",
        "cuts --seed",
        "cuts --seed x",
        "cuts --seed 1 --seed 2",
        "cuts --threads 0",
        "cuts --counters",
        "cuts --plant nothing",
        "cuts --other",
        "cuts --svg",
    ] {
        assert_eq!(read(line), None, "{line}");
    }
}

fn run(line: &str) -> Output {
    let mut program = Process::new(env!("CARGO_BIN_EXE_tester"));
    program.args(line.split_whitespace());
    program.output().expect("the program runs")
}

fn text(bytes: &[u8]) -> String {
    String::from_utf8_lossy(bytes).into_owned()
}

fn example() -> String {
    let folder = env!("CARGO_MANIFEST_DIR");
    format!("{folder}/../../examples/order.life")
}

/// A file of this test run.
fn scratch(name: &str) -> PathBuf {
    PathBuf::from(env!("CARGO_TARGET_TMPDIR")).join(name)
}

#[test]
fn it_says_how_it_is_used() {
    let run = run("other");
    assert_eq!(run.status.code(), Some(2));
    assert!(text(&run.stderr).starts_with("usage: tester run"));
}

#[test]
fn it_tells_a_life_and_draws_it() {
    let svg = scratch("order.svg");
    let run = run(&format!("run {} --rust --svg {}", example(), svg.display()));
    let said = text(&run.stdout);
    assert_eq!(run.status.code(), Some(0), "{said}");
    assert!(said.contains("EXECUTE capability 1 (300, -50)"), "{said}");
    let last = "36 records, 0 unlike the Rust's; 10 facts, 0 broken\n";
    assert!(said.ends_with(last), "{said}");
    let drawn = std::fs::read_to_string(svg).expect("a picture");
    assert!(drawn.starts_with("<svg ") && drawn.ends_with("</svg>\n"));
}

#[test]
fn campaigns_end_with_a_table_and_a_count() {
    for name in ["cuts", "faults", "clock"] {
        let run = run(&format!("{name} --rust --lives 3"));
        let said = text(&run.stdout);
        assert_eq!(run.status.code(), Some(0), "{said}");
        assert!(said.starts_with("campaign"), "{said}");
        assert!(said.ends_with(" passed, 0 failed\n"), "{said}");
    }
}

#[test]
fn a_planted_fault_ends_with_1_and_a_picture() {
    let svg = scratch("again.svg");
    let line = format!("cuts --lives 4 --plant again --svg {}", svg.display());
    let run = run(&line);
    let said = text(&run.stdout);
    assert_eq!(run.status.code(), Some(1), "{said}");
    assert!(said.starts_with("FAILED life"), "{said}");
    let drawn = std::fs::read_to_string(svg).expect("a picture");
    assert!(drawn.contains("mains cut"));
}

#[test]
fn counters_need_their_build() {
    let run = run("counters --rust --lives 1");
    let code = if oracle::HAS_COUNTERS { 0 } else { 2 };
    assert_eq!(run.status.code(), Some(code));
}

#[test]
fn a_bad_file_is_named_with_its_line() {
    let file = scratch("bad.life");
    std::fs::write(&file, "profile\nstrat\n").expect("a file");
    let run = run(&format!("run {} --rust", file.display()));
    assert_eq!(run.status.code(), Some(2));
    assert!(text(&run.stderr).contains("bad.life:2:"));
}

#[cfg(not(any(feature = "linked", feature = "host")))]
#[test]
fn nothing_is_run_without_an_archive() {
    for line in ["cuts --lives 1".into(), format!("run {}", example())] {
        let run = run(&line);
        assert_eq!(run.status.code(), Some(2));
        assert!(text(&run.stderr).contains("--features host"));
    }
}

#[cfg(any(feature = "linked", feature = "host"))]
#[test]
fn the_proved_code_passes() {
    for campaign in Campaign::ALL {
        let run = run(&format!("{} --lives 5", campaign.name()));
        let said = text(&run.stdout);
        let can = campaign != Campaign::Counters || oracle::HAS_COUNTERS;
        let code = if can { 0 } else { 2 };
        assert_eq!(run.status.code(), Some(code), "{said}");
    }
}

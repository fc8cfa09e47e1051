//! The program: compares the proved code with the Rust, and writes stored vectors.

use std::fs;
use std::io::{self, Write};
use std::path::Path;
use std::process::ExitCode;
use std::sync::Arc;
use std::time::Instant;
use wire::batch::Run;
use wire::compare::{compare, MakeEngine, Request};
use wire::engine::{self, Engine};
use wire::format::OUTPUT_BYTES;
use wire::host;
use wire::lives::{self, Lives};
use wire::options::{Command, Many, USAGE};
use wire::report;
use wire::stepping::{Stepping, Tally};
use wire::vectors;

const NO_ENGINE: &str = "this build has no proved code: build it with `--features linked`";
const NO_HOST: &str = "this build can't step: build it with `--features linked,host`";
const NO_COUNTERS: &str = "--counters needs the build with `--features counters`";

fn main() -> ExitCode {
    let Some(command) = Command::read(std::env::args().skip(1)) else {
        eprint!("{USAGE}");
        return ExitCode::from(2);
    };
    match run(&command) {
        Ok(true) => ExitCode::SUCCESS,
        Ok(false) => ExitCode::FAILURE,
        Err(error) => {
            eprintln!("wire: {error}");
            ExitCode::from(2)
        }
    }
}

/// Whether everything is as the Rust has it.
fn run(command: &Command) -> io::Result<bool> {
    match command {
        Command::Compare(_) | Command::Check { .. } if engine::linked().is_none() => {
            Err(io::Error::other(NO_ENGINE))
        }
        Command::Compare(many) => run_lives(many, &engine::linked, &String::new),
        Command::Step(_) if engine::linked().is_none() || host::linked().is_none() => {
            Err(io::Error::other(NO_HOST))
        }
        Command::Step(many) => step(many),
        Command::Count(many) => run_lives(many, &|| None, &String::new),
        Command::Vectors {
            seed,
            lives,
            folder,
        } => {
            say(&vectors::write(folder, *seed, *lives)?.to_string())?;
            Ok(true)
        }
        Command::Check { folder } => check(folder),
        Command::Encode { life, folder } => {
            let lives = lives::read(&fs::read_to_string(life)?).map_err(io::Error::other)?;
            say(&vectors::encode(folder, lives)?.to_string())?;
            Ok(true)
        }
    }
}

/// The functions over lent words beside the byte entry and the Rust.
fn step(many: &Many) -> io::Result<bool> {
    let tally = Arc::new(Tally::default());
    let make = || {
        let stepping = Stepping::new(host::linked()?, engine::linked(), tally.clone());
        Some(Box::new(stepping) as Box<dyn Engine>)
    };
    run_lives(many, &make, &|| tally.to_string())
}

fn run_lives(many: &Many, make: MakeEngine<'_>, more: &dyn Fn() -> String) -> io::Result<bool> {
    if many.counters && !oracle::HAS_COUNTERS {
        return Err(io::Error::other(NO_COUNTERS));
    }
    let processors = std::thread::available_parallelism().map_or(1, usize::from);
    let request = Request {
        lives: Lives {
            seed: many.seed,
            counters: many.counters,
        },
        calls: many.calls,
        threads: many.threads.unwrap_or(processors),
    };
    let began = Instant::now();
    let summary = compare(&request, make);
    say(&report::summary(&request, &summary, began.elapsed()))?;
    say(&more())?;
    let Some(mut engine) = make() else {
        say("nothing was compared\n")?;
        return Ok(true);
    };
    let failures = &summary.failures;
    say(&report::failures(failures, &request, engine.as_mut()))?;
    say(&format!(
        "{} passed, {} failed\n",
        summary.passed, summary.failed
    ))?;
    Ok(summary.failed == 0 && summary.passed > 0)
}

/// Prints the text. That the reader has gone is no failure.
fn say(text: &str) -> io::Result<()> {
    match io::stdout().write_all(text.as_bytes()) {
        Err(error) if error.kind() == io::ErrorKind::BrokenPipe => Ok(()),
        result => result,
    }
}

/// Runs stored vectors.
fn check(folder: &Path) -> io::Result<bool> {
    let input = fs::read(folder.join(vectors::INPUT_FILE))?;
    let demanded = fs::read(folder.join(vectors::OUTPUT_FILE))?;
    let Some(mut engine) = engine::linked() else {
        return Err(io::Error::other(NO_ENGINE));
    };
    let run = Run::of(engine.as_mut(), &input, demanded.len() + OUTPUT_BYTES);
    let records = demanded.len() / OUTPUT_BYTES;
    let place = run.difference(&demanded);
    if let Some(place) = place {
        say(&format!("record {place} differs\n"))?;
    }
    let passed = place.unwrap_or(records);
    let failed = place.map_or(0, |place| (records - place).max(1));
    say(&format!("{passed} passed, {failed} failed\n"))?;
    Ok(failed == 0)
}

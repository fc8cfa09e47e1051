//! The program: runs a life or a campaign on the proved code.

use std::fs;
use std::io::{self, Read, Write};
use std::path::Path;
use std::process::ExitCode;
use std::time::Instant;
use tester::campaign::Campaign;
use tester::facts::{judge, FACTS};
use tester::host::{proved, Stage};
use tester::log::Entry;
use tester::options::{Command, Task, USAGE};
use tester::picture::picture;
use tester::plant::Planted;
use tester::report;
use tester::runs::{run, Request, Summary};
use tester::trial::{differences, Trial};
use wire::machine::Machine;
use wire::play::Plan;

const NO_ENGINE: &str =
    "this build has no proved code: build it with `--features host`, or say --rust";
const NO_COUNTERS: &str = "counters need the build with `--features counters`";

fn main() -> ExitCode {
    let Some(command) = Command::read(std::env::args().skip(1)) else {
        eprint!("{USAGE}");
        return ExitCode::from(2);
    };
    match perform(&command) {
        Ok(true) => ExitCode::SUCCESS,
        Ok(false) => ExitCode::FAILURE,
        Err(error) => {
            eprintln!("tester: {error}");
            ExitCode::from(2)
        }
    }
}

/// Whether everything passed.
fn perform(command: &Command) -> io::Result<bool> {
    if !command.rust && command.plant.is_none() && proved().is_none() {
        return Err(io::Error::other(NO_ENGINE));
    }
    let counters = match &command.task {
        Task::Run { counters, .. } => *counters,
        Task::Campaign { campaign, .. } => *campaign == Campaign::Counters,
    };
    if counters && !oracle::HAS_COUNTERS {
        return Err(io::Error::other(NO_COUNTERS));
    }
    match &command.task {
        Task::Run { file, .. } => run_file(command, file),
        Task::Campaign {
            campaign,
            seed,
            lives,
            threads,
        } => {
            let processors = std::thread::available_parallelism().map_or(1, usize::from);
            let request = Request {
                campaign: *campaign,
                seed: *seed,
                lives: *lives,
                threads: threads.unwrap_or(processors),
            };
            run_campaign(command, &request)
        }
    }
}

/// What is tested: the proved code or the Rust, or the Rust with a planted fault.
fn stage(command: &Command) -> Box<dyn Stage> {
    match (command.plant, proved().filter(|_| !command.rust)) {
        (Some(plant), _) => Box::new(Planted(plant)),
        (None, Some(proved)) => proved,
        (None, None) => Box::new(Machine::default()),
    }
}

fn run_file(command: &Command, file: &Path) -> io::Result<bool> {
    let text = if file == Path::new("-") {
        let mut text = String::new();
        io::stdin().read_to_string(&mut text)?;
        text
    } else {
        let unread = |e: io::Error| io::Error::other(format!("{}: {e}", file.display()));
        fs::read_to_string(file).map_err(unread)?
    };
    let lives = wire::lives::read(&text)
        .map_err(|error| io::Error::other(format!("{}:{error}", file.display())))?;
    let trial = Trial {
        about: file.display().to_string(),
        plans: lives.into_iter().map(Plan::plain).collect(),
    };
    let log = trial.told(stage(command).as_mut());
    say(&report::timelines(&log))?;
    draw(command, &log, &trial.about)?;
    verdict(&log)
}

/// Whether a log is as the Rust has it and breaks no fact.
fn verdict(log: &[Entry]) -> io::Result<bool> {
    let differences = differences(log);
    let verdicts = judge(log);
    let broken = FACTS.iter().zip(&verdicts);
    for (fact, verdict) in broken.filter(|(_, verdict)| !verdict.broken.is_empty()) {
        say(&format!(
            "broken: {}: {}\n",
            fact.name, verdict.broken[0].why
        ))?;
    }
    let failed = verdicts.iter().filter(|v| !v.broken.is_empty()).count();
    let records = log.len();
    say(&format!(
        "\n{records} records, {differences} unlike the Rust's; {} facts, {failed} broken\n",
        FACTS.len()
    ))?;
    Ok(differences == 0 && failed == 0)
}

fn run_campaign(command: &Command, request: &Request) -> io::Result<bool> {
    let began = Instant::now();
    let summary = run(request, &|| stage(command));
    say(&report::failures(&summary, stage(command).as_mut()))?;
    if let Some((number, trial)) = shown(request, &summary).filter(|_| command.svg.is_some()) {
        let log = trial.told(stage(command).as_mut());
        let (name, seed) = (request.campaign.name(), request.seed);
        let title = format!("{name}, seed {seed}, life {number}: {}", trial.about);
        draw(command, &log, &title)?;
    }
    say(&report::table(request, &summary, began.elapsed()))?;
    let (passed, failed) = (summary.passed, summary.failed);
    say(&format!("{passed} passed, {failed} failed\n"))?;
    Ok(failed == 0 && passed > 0)
}

/// The trial of the picture with the number of its life: the first that failed, or one from the
/// middle of the first life.
fn shown(request: &Request, summary: &Summary) -> Option<(u64, Trial)> {
    let failed = summary.failures.first();
    let failed = failed.map(|failure| (failure.place.0, failure.trial.clone()));
    failed.or_else(|| {
        let mut trials = request.campaign.trials(request.seed, 0);
        let middle = trials.len() / 2;
        (!trials.is_empty()).then(|| (0, trials.swap_remove(middle)))
    })
}

fn draw(command: &Command, log: &[Entry], title: &str) -> io::Result<()> {
    match &command.svg {
        Some(file) => {
            let unwritten = |e: io::Error| io::Error::other(format!("{}: {e}", file.display()));
            fs::write(file, picture(log, title)).map_err(unwritten)
        }
        None => Ok(()),
    }
}

/// Prints the text. That the reader has gone is no failure.
fn say(text: &str) -> io::Result<()> {
    match io::stdout().write_all(text.as_bytes()) {
        Err(error) if error.kind() == io::ErrorKind::BrokenPipe => Ok(()),
        result => result,
    }
}

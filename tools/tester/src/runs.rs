//! Runs a campaign on some threads.

use crate::campaign::Campaign;
use crate::host::Stage;
use crate::trial::{Outcome, Trial};
use std::io::{self, Write};
use std::sync::atomic::{AtomicU64, Ordering};
use std::sync::{Mutex, PoisonError};
use std::time::{Duration, Instant};

/// After so many failed trials the campaign ends early, and so many are kept to be shown.
const TOO_MANY: u64 = 100;
const KEPT: usize = 3;

const PROGRESS: Duration = Duration::from_secs(2);
const PAUSE: Duration = Duration::from_millis(20);

/// Gives each thread what it tests.
pub type MakeStage<'a> = &'a (dyn Fn() -> Box<dyn Stage> + Sync);

#[derive(Clone, Copy, Debug, PartialEq, Eq)]
pub struct Request {
    pub campaign: Campaign,
    pub seed: u64,
    /// How many lives it begins from.
    pub lives: u64,
    pub threads: usize,
}

/// A trial that failed: the number of its life and its own, and what came of it.
#[derive(Clone, Debug)]
pub struct Failure {
    pub place: (u64, usize),
    pub trial: Trial,
    pub outcome: Outcome,
}

#[derive(Clone, Debug, Default)]
pub struct Summary {
    pub passed: u64,
    pub failed: u64,
    pub total: Outcome,
    /// The first ones, those that break a fact before the others.
    pub failures: Vec<Failure>,
}

impl Summary {
    fn note(&mut self, place: (u64, usize), trial: Trial, outcome: Outcome) {
        self.total.add(&outcome);
        if outcome.passed() {
            self.passed += 1;
            return;
        }
        self.failed += 1;
        self.failures.push(Failure {
            place,
            trial,
            outcome,
        });
        let rank = |failure: &Failure| (failure.outcome.broken() == 0, failure.place);
        self.failures.sort_by_key(rank);
        self.failures.truncate(KEPT);
    }
}

/// Runs all trials. Where none fails, the result is the same on any number of threads.
pub fn run(request: &Request, make: MakeStage<'_>) -> Summary {
    let next = AtomicU64::new(0);
    let summary = Mutex::new(Summary::default());
    std::thread::scope(|scope| {
        let threads: Vec<_> = (0..request.threads.max(1))
            .map(|_| scope.spawn(|| work(request, make, &next, &summary)))
            .collect();
        let began = Instant::now();
        let mut shown = began;
        while threads.iter().any(|thread| !thread.is_finished()) {
            std::thread::sleep(PAUSE);
            if shown.elapsed() >= PROGRESS {
                shown = Instant::now();
                progress(request, next.load(Ordering::Relaxed), began);
            }
        }
    });
    summary.into_inner().unwrap_or_else(PoisonError::into_inner)
}

fn progress(request: &Request, begun: u64, began: Instant) {
    let Request {
        campaign, lives, ..
    } = request;
    let (name, seconds) = (campaign.name(), began.elapsed().as_secs());
    let begun = begun.min(*lives);
    // That nobody reads it is no failure.
    let _ = writeln!(
        io::stderr(),
        "{name}: {begun} of {lives} lives, {seconds} s"
    );
}

fn work(request: &Request, make: MakeStage<'_>, next: &AtomicU64, summary: &Mutex<Summary>) {
    let mut stage = make();
    let lock = || summary.lock().unwrap_or_else(PoisonError::into_inner);
    loop {
        let number = next.fetch_add(1, Ordering::Relaxed);
        if number >= request.lives {
            break;
        }
        let trials = request.campaign.trials(request.seed, number);
        for (n, trial) in trials.into_iter().enumerate() {
            if lock().failed >= TOO_MANY {
                return;
            }
            let outcome = trial.run(stage.as_mut());
            lock().note((number, n), trial, outcome);
        }
    }
}

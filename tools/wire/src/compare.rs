//! Runs many lives on the engine, and compares every output record with the Rust's.

use crate::batch::{Batch, Run};
use crate::counts::Counts;
use crate::engine::Engine;
use crate::format::{INPUT_BYTES, OUTPUT_BYTES};
use crate::lives::Lives;
use crate::odd::{self, List};
use crate::play::{play, Plan};
use oracle::prng::Prng;
use std::collections::BTreeMap;
use std::sync::{Condvar, Mutex, MutexGuard, PoisonError};
use std::time::{Duration, Instant};

/// How many lives go into one input.
pub const LIVES: u64 = 32;

/// One batch in so many is run once more with bytes cut off, and with too little room.
const CUT_EVERY: u64 = 4;

/// How many failures are kept, to be looked into, and how many end the run.
const KEPT: usize = 3;
const TOO_MANY: u64 = 100;

const PROGRESS: Duration = Duration::from_secs(5);

/// Gives each thread its engine; none if nothing is to be compared.
pub type MakeEngine<'a> = &'a (dyn Fn() -> Option<Box<dyn Engine>> + Sync);

#[derive(Clone, Copy, Debug)]
pub struct Request {
    pub lives: Lives,
    /// At least so many calls.
    pub calls: u64,
    pub threads: usize,
}

/// What differs from the Rust.
#[derive(Clone, Debug)]
pub enum Failure {
    /// The life of this number; `first` is the number of the first one in its input.
    Life {
        number: u64,
        first: u64,
    },
    Cut(CutRun),
    Odd(List),
}

/// An input of which only some bytes are given, or with little room.
#[derive(Clone, Copy, Debug)]
pub struct CutRun {
    /// The number of the first life in it.
    pub first: u64,
    /// The bytes that are given, and those that there is room for.
    pub input: usize,
    pub room: usize,
    /// The bytes that the engine says it wrote, and those that it has to write.
    pub written: usize,
    pub demanded: usize,
    /// The first record that differs.
    pub place: usize,
}

/// Where the time went, over all threads.
#[derive(Clone, Copy, Debug, Default)]
pub struct Times {
    pub generating: Duration,
    /// Running the Rust, weaving and encoding.
    pub playing: Duration,
    pub engine: Duration,
    pub comparing: Duration,
}

impl Times {
    fn add(&mut self, other: &Self) {
        self.generating += other.generating;
        self.playing += other.playing;
        self.engine += other.engine;
        self.comparing += other.comparing;
    }
}

/// What came out of some lives.
#[derive(Clone, Debug, Default)]
pub struct Summary {
    pub counts: Counts,
    /// Lives, cut runs and odd lists.
    pub passed: u64,
    pub failed: u64,
    /// Of the lives only the first ones.
    pub failures: Vec<Failure>,
    pub times: Times,
}

impl Summary {
    fn add(&mut self, other: Self) {
        self.counts.add(&other.counts);
        self.passed += other.passed;
        self.failed += other.failed;
        self.failures.extend(other.failures);
        self.times.add(&other.times);
    }

    fn note(&mut self, failure: Option<Failure>) {
        match failure {
            None => self.passed += 1,
            Some(failure) => {
                self.failed += 1;
                self.failures.push(failure);
            }
        }
    }
}

/// Runs the odd lists, then as many lives as it takes. What comes out depends on the seed and
/// the number of calls alone, not on the threads.
pub fn compare(request: &Request, make: MakeEngine<'_>) -> Summary {
    let mut summary = odd_lists(make);
    let shared = Shared::new(request);
    std::thread::scope(|scope| {
        for _ in 0..request.threads.max(1) {
            scope.spawn(|| shared.work(make));
        }
        shared.show_progress();
    });
    summary.add(std::mem::take(&mut shared.state().summary));
    summary
}

fn odd_lists(make: MakeEngine<'_>) -> Summary {
    let mut summary = Summary::default();
    let Some(mut engine) = make() else {
        return summary;
    };
    for list in odd::lists() {
        let batch = Batch::of(&list.1);
        let room = batch.demanded.len() + OUTPUT_BYTES;
        let run = Run::of(engine.as_mut(), &batch.input, room);
        let differs = !run.is(&batch.demanded);
        summary.note(differs.then_some(Failure::Odd(list)));
    }
    summary
}

/// What the threads share.
struct Shared<'a> {
    request: &'a Request,
    state: Mutex<State>,
    done: Condvar,
    began: Instant,
}

#[derive(Default)]
struct State {
    /// The next batch that is handed out, and the next one that is added.
    next: u64,
    added: u64,
    /// Batches that came before their turn.
    early: BTreeMap<u64, Summary>,
    summary: Summary,
    finished: bool,
}

impl<'a> Shared<'a> {
    fn new(request: &'a Request) -> Self {
        Self {
            request,
            state: Mutex::default(),
            done: Condvar::new(),
            began: Instant::now(),
        }
    }

    fn state(&self) -> MutexGuard<'_, State> {
        self.state.lock().unwrap_or_else(PoisonError::into_inner)
    }

    fn work(&self, make: MakeEngine<'_>) {
        let _stop = StopIfPanicking(self);
        let mut worker = Worker {
            lives: self.request.lives,
            engine: make(),
            batch: Batch::default(),
            run: Run::default(),
        };
        while let Some(number) = self.next() {
            let summary = worker.batch(number);
            self.add(number, summary);
        }
    }

    fn next(&self) -> Option<u64> {
        let mut state = self.state();
        if state.finished {
            return None;
        }
        state.next += 1;
        Some(state.next - 1)
    }

    /// Adds what is next in turn, until there are calls enough.
    fn add(&self, number: u64, summary: Summary) {
        let mut state = self.state();
        state.early.insert(number, summary);
        while !state.finished {
            let turn = state.added;
            let Some(summary) = state.early.remove(&turn) else {
                break;
            };
            state.summary.add(summary);
            state.summary.failures.truncate(KEPT);
            state.added += 1;
            let summary = &state.summary;
            let enough = summary.counts.calls >= self.request.calls;
            state.finished = enough || summary.failed >= TOO_MANY;
        }
        if state.finished {
            self.done.notify_all();
        }
    }

    /// A line on standard error every few seconds.
    fn show_progress(&self) {
        let mut state = self.state();
        let mut shown = Instant::now();
        while !state.finished {
            let wait = self.done.wait_timeout(state, PROGRESS);
            state = wait.unwrap_or_else(PoisonError::into_inner).0;
            if shown.elapsed() >= PROGRESS {
                let calls = state.summary.counts.calls;
                let seconds = self.began.elapsed().as_secs_f64();
                let (wanted, failed) = (self.request.calls, state.summary.failed);
                let rate = calls as f64 / seconds;
                eprintln!("{calls} of {wanted} calls, {rate:.0} in a second, {failed} failed");
                shown = Instant::now();
            }
        }
    }
}

/// A thread that panics ends the others, so that its message is seen.
struct StopIfPanicking<'a, 'b>(&'a Shared<'b>);

impl Drop for StopIfPanicking<'_, '_> {
    fn drop(&mut self) {
        if std::thread::panicking() {
            self.0.state().finished = true;
            self.0.done.notify_all();
        }
    }
}

/// One thread's engine and room.
struct Worker {
    lives: Lives,
    engine: Option<Box<dyn Engine>>,
    batch: Batch,
    run: Run,
}

impl Worker {
    fn batch(&mut self, number: u64) -> Summary {
        let mut summary = Summary::default();
        let first = number * LIVES;
        let began = Instant::now();
        let plans: Vec<Plan> = (first..first + LIVES).map(|n| self.lives.plan(n)).collect();
        let generated = Instant::now();
        self.batch.clear();
        play(&plans, &mut self.batch);
        summary.times.generating = generated - began;
        summary.times.playing = generated.elapsed();
        self.compare(first, &mut summary);
        if number.is_multiple_of(CUT_EVERY) && summary.failed == 0 {
            let mut rng = Prng::new(self.lives.seed, !number);
            let (input, output) = (self.batch.input.len(), self.batch.demanded.len());
            let cut = rng.index(input);
            let answers = cut / INPUT_BYTES * OUTPUT_BYTES;
            let rooms = [
                answers,
                answers + OUTPUT_BYTES - 1,
                answers + OUTPUT_BYTES,
                output,
            ];
            self.cut_run(first, cut, rng.one_of(rooms), &mut summary);
            self.cut_run(first, input, rng.index(output), &mut summary);
        }
        summary.counts.add(&self.batch.counts);
        summary
    }

    /// Runs all lives of the batch at once.
    fn compare(&mut self, first: u64, summary: &mut Summary) {
        let Some(engine) = &mut self.engine else {
            return;
        };
        let began = Instant::now();
        // One record more than is needed, to see that it stays as it was.
        let room = self.batch.demanded.len() + OUTPUT_BYTES;
        self.run.again(engine.as_mut(), &self.batch.input, room);
        let ran = Instant::now();
        if self.run.is(&self.batch.demanded) {
            summary.passed += LIVES;
        } else {
            self.note_lives(first, summary);
        }
        summary.times.engine = ran - began;
        summary.times.comparing = ran.elapsed();
    }

    /// Each life by itself.
    fn note_lives(&self, first: u64, summary: &mut Summary) {
        let demanded = &self.batch.demanded;
        let place = self.run.difference(demanded).unwrap_or(0);
        let mut failed = 0;
        for (number, records) in (first..).zip(self.batch.lives()) {
            let bytes = records.start * OUTPUT_BYTES..records.end * OUTPUT_BYTES;
            let same = self.run.bytes().get(bytes.clone()) == Some(&demanded[bytes]);
            failed += u64::from(!same);
            summary.note((!same).then_some(Failure::Life { number, first }));
        }
        // Bytes past the last record belong to the last life.
        if failed == 0 && place == self.batch.records() {
            let number = first + LIVES - 1;
            summary.passed -= 1;
            summary.note(Some(Failure::Life { number, first }));
        }
    }

    fn cut_run(&mut self, first: u64, input: usize, room: usize, summary: &mut Summary) {
        let demanded = self.batch.demanded_of(input, room);
        if demanded.len() / OUTPUT_BYTES > input / INPUT_BYTES {
            self.batch.counts.short();
        }
        let Some(engine) = &mut self.engine else {
            return;
        };
        let input_bytes = &self.batch.input[..input];
        self.run.again(engine.as_mut(), input_bytes, room);
        let place = self.run.difference(&demanded);
        summary.note(place.map(|place| {
            Failure::Cut(CutRun {
                first,
                input,
                room,
                written: self.run.written,
                demanded: demanded.len(),
                place,
            })
        }));
    }
}

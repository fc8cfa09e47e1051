//! One trial: some lives on the engine, one after the other, compared with the Rust, and judged
//! by the outputs alone.

use crate::facts::{self, Verdict};
use crate::host::{converse, Stage};
use crate::log::Entry;
use oracle::life::Call;
use wire::batch::Run;
use wire::format::word::put_words;
use wire::format::{Input, Output, OUTPUT_BYTES};
use wire::machine::Running;
use wire::play::{play, Plan};
use wire::turn::Turn;

/// Lives under different boot numbers, with what they are about.
#[derive(Clone, Debug)]
pub struct Trial {
    pub about: String,
    pub plans: Vec<Plan>,
}

/// What came of a trial.
#[derive(Clone, Debug, Default)]
pub struct Outcome {
    pub lives: u64,
    pub calls: u64,
    pub items: u64,
    /// Records compared with the Rust, and those that differ.
    pub records: u64,
    pub differences: u64,
    /// One for each fact.
    pub verdicts: Vec<Verdict>,
}

impl Outcome {
    pub fn broken(&self) -> u64 {
        self.verdicts.iter().map(|v| v.broken.len() as u64).sum()
    }

    pub fn passed(&self) -> bool {
        self.differences == 0 && self.broken() == 0
    }

    pub fn add(&mut self, other: &Self) {
        self.lives += other.lives;
        self.calls += other.calls;
        self.items += other.items;
        self.records += other.records;
        self.differences += other.differences;
        self.verdicts.resize(facts::FACTS.len(), Verdict::default());
        for (sum, verdict) in self.verdicts.iter_mut().zip(&other.verdicts) {
            sum.checked += verdict.checked;
            sum.broken.extend(verdict.broken.iter().cloned());
        }
    }

    /// Counts a log and its differences from what the Rust demands.
    fn of(log: &[Entry], demanded: impl Iterator<Item = Output>) -> Self {
        let begins = |input: &Input| match input {
            Input::Call(call) => !matches!(call, Call::Set { .. }),
            _ => false,
        };
        let count = |wanted: &dyn Fn(&Entry) -> bool| log.iter().filter(|e| wanted(e)).count();
        let pairs = log.iter().zip(demanded);
        let differing = pairs.filter(|(entry, demanded)| entry.output != Some(*demanded));
        Self {
            lives: count(&|entry| matches!(entry.input, Input::Start(_))) as u64,
            calls: count(&|entry| begins(&entry.input)) as u64,
            items: count(&|entry| matches!(entry.output, Some(Output::Item(0, _)))) as u64,
            records: log.len() as u64,
            differences: differing.count() as u64,
            verdicts: facts::judge(log),
        }
    }
}

impl Trial {
    /// The lives are first run with the replies that the Rust's items ask for. If an output
    /// differs, they are run once more by a host that goes by the engine's own answers.
    pub fn run(&self, stage: &mut dyn Stage) -> Outcome {
        let mut turns: Vec<Turn> = Vec::new();
        play(&self.plans, &mut turns);
        let mut input = Vec::new();
        let mut demanded = Vec::new();
        for turn in &turns {
            put_words(&turn.input_words(), &mut input);
            turn.output.encode(&mut demanded);
        }
        let run = Run::of(stage, &input, demanded.len() + OUTPUT_BYTES);
        let same = run.is(&demanded);
        let log: Vec<Entry> = turns
            .iter()
            .enumerate()
            .map(|(n, turn)| entry(n, turn, (!same).then_some(&run)))
            .collect();
        let mut outcome = Outcome::of(&log, turns.iter().map(|turn| turn.output));
        if !same {
            outcome.differences = outcome.differences.max(1);
            outcome.add(&self.by_answers(stage));
        }
        outcome
    }

    fn by_answers(&self, stage: &mut dyn Stage) -> Outcome {
        let log = self.told(stage);
        Outcome::of(&log, rusts_answers(&log))
    }

    /// The lives as the engine answers them, with what a person wants to read after each call.
    pub fn told(&self, stage: &mut dyn Stage) -> Vec<Entry> {
        converse(stage.stepwise().as_mut(), &self.plans)
    }
}

/// What the Rust answers to the same inputs.
fn rusts_answers(log: &[Entry]) -> impl Iterator<Item = Output> + '_ {
    let mut rust = Running::default();
    log.iter().map(move |entry| rust.react(&entry.input))
}

/// How many outputs of a log are not what the Rust answers.
pub fn differences(log: &[Entry]) -> usize {
    let pairs = log.iter().zip(rusts_answers(log));
    pairs.filter(|(e, rust)| e.output != Some(*rust)).count()
}

/// What was sent and what came for it; the demanded output where nothing differs.
fn entry(n: usize, turn: &Turn, run: Option<&Run>) -> Entry {
    let output = match run {
        None => Some(turn.output),
        Some(run) => run.record(n).and_then(|words| Output::of(&words)),
    };
    Entry {
        input: turn.input,
        output,
    }
}

/// The turns of a life on the Rust, with nothing put in.
pub fn plain_turns(plan: &Plan) -> Vec<Turn> {
    let mut turns = Vec::new();
    play(std::slice::from_ref(plan), &mut turns);
    turns
}

//! A host that goes by the engine's own answers: it replies to what is handed out, and reads what
//! there is to read after each call.

use crate::lent::Lent;
use crate::log::Entry;
use definitions::turns::{Reading, Reply};
use oracle::driver::Item;
use oracle::life::{Life, Reply as Scripted};
use oracle::runtime_core::Observation;
use wire::batch::Run;
use wire::engine::{linked, Engine};
use wire::format::{Input, Opening, Output, INPUT_BYTES, OUTPUT_BYTES};
use wire::machine::{Machine, Running};
use wire::play::{Cut, Plan};

/// More items than any call hands out; an engine without end is left there.
const MOST_ITEMS: usize = 200;

/// Takes one record after another.
pub trait Step {
    /// None if what comes is no output record.
    fn step(&mut self, input: &Input) -> Option<Output>;
}

impl Step for Running {
    fn step(&mut self, input: &Input) -> Option<Output> {
        Some(self.react(input))
    }
}

/// An engine that can be talked to, too.
pub trait Stage: Engine {
    fn stepwise(&mut self) -> Box<dyn Step + '_>;
}

impl Stage for Machine {
    fn stepwise(&mut self) -> Box<dyn Step + '_> {
        Box::new(Running::new(self.0))
    }
}

/// The proved code; none in a build without it.
pub fn proved() -> Option<Box<dyn Stage>> {
    match wire::host::linked() {
        Some(host) => Some(Box::new(Lent::new(host))),
        None => linked().map(|engine| Box::new(Proved(engine)) as Box<dyn Stage>),
    }
}

/// The proved code by a byte entry: the test entry sets counters, and takes whole inputs.
pub struct Proved(pub Box<dyn Engine>);

impl Engine for Proved {
    fn run(&mut self, input: &[u8], output: &mut [u8]) -> usize {
        self.0.run(input, output)
    }
}

impl Stage for Proved {
    fn stepwise(&mut self) -> Box<dyn Step + '_> {
        Box::new(Again::new(self.0.as_mut()))
    }
}

/// A byte entry runs whole inputs: each record is answered by running all so far once more.
pub struct Again<'a> {
    engine: &'a mut dyn Engine,
    input: Vec<u8>,
    run: Run,
}

impl<'a> Again<'a> {
    pub fn new(engine: &'a mut dyn Engine) -> Self {
        Self {
            engine,
            input: Vec::new(),
            run: Run::default(),
        }
    }
}

impl Step for Again<'_> {
    fn step(&mut self, input: &Input) -> Option<Output> {
        let before = self.input.len() / INPUT_BYTES;
        input.encode(&mut self.input);
        let room = (before + 1) * OUTPUT_BYTES;
        self.run.again(self.engine, &self.input, room);
        self.run.record(before).and_then(|words| Output::of(&words))
    }
}

struct Host<'a> {
    stage: &'a mut dyn Step,
    log: Vec<Entry>,
    /// The parameters of the last execute that succeeded.
    executed: [i32; 2],
}

/// Runs lives, each cut where its plan says; what is woven into a plan is left out.
pub fn converse(stage: &mut dyn Step, plans: &[Plan]) -> Vec<Entry> {
    let mut host = Host {
        stage,
        log: Vec::new(),
        executed: [0; 2],
    };
    for plan in plans {
        host.life(&plan.life, plan.weaving.cut);
    }
    host.log
}

/// The mains are cut.
struct IsCut;

impl Host<'_> {
    fn step(&mut self, input: Input) -> Option<Output> {
        let output = self.stage.step(&input);
        self.log.push(Entry { input, output });
        output
    }

    fn life(&mut self, life: &Life, cut: Option<Cut>) {
        self.executed = [0; 2];
        for capability in &life.start.capabilities {
            self.step(Input::Capability(*capability));
        }
        let at = |step: usize| cut.filter(|cut| cut.step == step).map(|cut| cut.wait);
        let start = Input::Start(Opening::of(&life.start));
        let mut on = self.call(start, &life.start.replies, at(0)).is_ok();
        self.read(life, on);
        for (n, step) in life.steps.iter().enumerate() {
            if !on || cut.is_some_and(|cut| n >= cut.step) {
                break;
            }
            on = self
                .call(Input::Call(step.call), &step.replies, at(n + 1))
                .is_ok();
            self.read(life, on);
        }
    }

    /// Makes a call and replies to its items, up to the cut.
    fn call(&mut self, call: Input, script: &[Scripted], cut: Option<u64>) -> Result<(), IsCut> {
        let mut script = script.iter();
        let mut output = self.step(call);
        for wait in 0..MOST_ITEMS {
            let Some(Output::Item(0, item)) = output else {
                break;
            };
            if cut == Some(wait as u64) {
                return Err(IsCut);
            }
            let reply = self.reply(&item, &mut script);
            output = self.step(Input::Reply(reply));
        }
        Ok(())
    }

    /// The reply that the script has for the item.
    fn reply(&mut self, item: &Item, script: &mut std::slice::Iter<'_, Scripted>) -> Reply {
        if let Item::Record { .. } = item {
            return Reply::Recorded;
        }
        let scripted = script.next().copied().unwrap_or(Scripted::Ok);
        let good = scripted != Scripted::Fail;
        match item {
            Item::Observe { .. } => Reply::Observed(match scripted {
                Scripted::Fail => None,
                Scripted::See(seen) => Some(seen),
                Scripted::Ok => Some(Observation {
                    parameters: self.executed,
                    state: 0,
                }),
            }),
            Item::Execute { parameters, .. } => {
                if good {
                    self.executed = *parameters;
                }
                Reply::Executed(good)
            }
            _ => Reply::FellBack(good),
        }
    }

    /// The snapshot and the lease of each used axis.
    fn read(&mut self, life: &Life, wanted: bool) {
        if !wanted {
            return;
        }
        self.step(Input::Read(Reading::Snapshot));
        let mut axes: Vec<u8> = life.start.capabilities.iter().map(|c| c.resource).collect();
        axes.sort_unstable();
        axes.dedup();
        for axis in axes {
            self.step(Input::Read(Reading::Lease(axis.into())));
        }
    }
}

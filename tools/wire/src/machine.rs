//! An engine over the Rust original, for tests and for hosts that go by its answers. It is made
//! another way than the demanded outputs of [`crate::play`]: at each reply it runs the call again
//! from its beginning, with all replies so far.

use crate::engine::Engine;
use crate::format::{Input, Opening, Output, INPUT_BYTES, OUTPUT_BYTES};
use crate::turn::fits;

use definitions::turns::{refusal, Reading, Reply};
use definitions::weave::{OTHER_REPLY_AWAITED, REPLY_AWAITED};
use oracle::driver::Item;
use oracle::life::{Call, Counter};
use oracle::run::{apply, copy, Options, Readings};
use oracle::runtime_core::{
    Capability, Driver, DriverError, Observation, Reason, Receipt, Runtime,
};
use std::panic::{catch_unwind, resume_unwind, AssertUnwindSafe};

/// For tests: something that is not as it should be.
#[derive(Clone, Copy, Debug, Default, PartialEq, Eq)]
pub enum Flaw {
    #[default]
    None,
    /// The receipt of a fallback for the watchdog has an epoch one too high.
    Epoch,
    /// A reply of another kind is taken for a failure.
    OtherReply,
    /// A refused start leaves its capabilities listed.
    KeptList,
    /// The record after a malformed one is left out.
    Skips,
    /// The count of rejections is held one below its top, in the build with `counters`.
    HeldLow,
}

/// Runs whole inputs.
#[derive(Clone, Copy, Debug, Default)]
pub struct Machine(pub Flaw);

impl Engine for Machine {
    fn run(&mut self, input: &[u8], output: &mut [u8]) -> usize {
        let mut running = Running::new(self.0);
        let mut written = 0;
        for record in input.chunks(INPUT_BYTES) {
            let Some(room) = output.get_mut(written..written + OUTPUT_BYTES) else {
                break;
            };
            let answer = match record.try_into() {
                Ok(record) => running.react(&Input::decode(record)),
                Err(_) => Output::Short,
            };
            let mut bytes = Vec::new();
            answer.encode(&mut bytes);
            room.copy_from_slice(&bytes);
            written += OUTPUT_BYTES;
        }
        written
    }
}

/// A driver that gives the replies so far, and then stops with the item.
struct Feeding<'a>(std::slice::Iter<'a, Reply>);

/// The payload of the unwinding.
struct Handed(Item);

impl Feeding<'_> {
    fn reply(&mut self, item: Item) -> Reply {
        let next = self.0.next().copied();
        next.unwrap_or_else(|| resume_unwind(Box::new(Handed(item))))
    }

    fn done(&mut self, item: Item) -> Result<(), DriverError> {
        match self.reply(item) {
            Reply::Executed(true) | Reply::FellBack(true) => Ok(()),
            _ => Err(DriverError),
        }
    }
}

impl Driver for Feeding<'_> {
    fn observe(&mut self, resource: u8) -> Result<Observation, DriverError> {
        match self.reply(Item::Observe { resource }) {
            Reply::Observed(seen) => seen.ok_or(DriverError),
            _ => Err(DriverError),
        }
    }
    fn execute(&mut self, capability: u16, parameters: [i32; 2]) -> Result<(), DriverError> {
        self.done(Item::Execute {
            capability,
            parameters,
        })
    }
    fn fallback(&mut self, resource: u8, reason: Reason) -> Result<(), DriverError> {
        self.done(Item::Fallback { resource, reason })
    }
    fn record_receipt(&mut self, receipt: &Receipt) {
        self.reply(Item::Record { receipt: *receipt });
    }
}

/// Ends with what the work gives, or at the next item.
fn until_item<T>(work: impl FnOnce() -> T) -> Result<T, Box<Handed>> {
    catch_unwind(AssertUnwindSafe(work))
        .map_err(|payload| payload.downcast().unwrap_or_else(|p| resume_unwind(p)))
}

/// Takes one from a count of rejections that is one below its top, before a call counts on.
fn hold_low(runtime: &mut Runtime) {
    let readings = Readings::of(runtime, Options::ALL);
    let low = u16::MAX - 1;
    if readings.hidden.is_some_and(|h| h.invalid_count == low) {
        let set = Call::Set {
            counter: Counter::InvalidCount,
            value: (low - 1).into(),
        };
        apply(runtime, &set, &mut Feeding([].iter()));
    }
}

enum Begun {
    Start(Opening, Vec<Capability>),
    /// With the runtime as it was before the call.
    Call(Call, Box<Runtime>),
}

struct Wait {
    begun: Begun,
    replies: Vec<Reply>,
    item: Item,
}

/// Takes one record after another.
#[derive(Default)]
pub struct Running {
    flaw: Flaw,
    listed: Vec<Capability>,
    /// What readings show.
    runtime: Option<Box<Runtime>>,
    wait: Option<Wait>,
    skips: bool,
}

impl Running {
    pub fn new(flaw: Flaw) -> Self {
        Self {
            flaw,
            ..Self::default()
        }
    }

    /// The item whose reply is awaited.
    pub fn awaited(&self) -> Option<&Item> {
        self.wait.as_ref().map(|wait| &wait.item)
    }

    /// What comes out for an input.
    pub fn react(&mut self, input: &Input) -> Output {
        let skips = std::mem::replace(&mut self.skips, false);
        if skips && matches!(input, Input::Reply(_)) {
            return Output::Returned;
        }
        let output = match input {
            Input::Malformed(_) => {
                self.skips = self.flaw == Flaw::Skips;
                Output::Malformed
            }
            // Only the test entry has it.
            Input::Call(Call::Set { .. }) if !oracle::HAS_COUNTERS => Output::Malformed,
            Input::Capability(capability) => {
                self.listed.push(*capability);
                Output::Listed
            }
            Input::Start(opening) => self.start(opening),
            Input::Call(call) => self.call(call),
            Input::Reply(reply) => self.reply(reply),
            Input::Read(reading) => self.read(*reading),
        };
        self.spoiled(output)
    }

    fn spoiled(&self, mut output: Output) -> Output {
        if let Output::Item(0, Item::Record { receipt }) = &mut output {
            if self.flaw == Flaw::Epoch && receipt.reason == Reason::Watchdog {
                receipt.epoch += 1;
            }
        }
        output
    }

    fn start(&mut self, opening: &Opening) -> Output {
        let listed = std::mem::take(&mut self.listed);
        self.runtime = None;
        self.wait = None;
        self.go_on(Begun::Start(*opening, listed), Vec::new())
    }

    fn call(&mut self, call: &Call) -> Output {
        if let Some(wait) = &self.wait {
            return Output::Item(REPLY_AWAITED, wait.item);
        }
        let Some(runtime) = &mut self.runtime else {
            return Output::NoRuntime;
        };
        if let Call::Set { .. } = call {
            apply(runtime, call, &mut Feeding([].iter()));
            return Output::Set;
        }
        let before = Box::new(copy(runtime));
        self.go_on(Begun::Call(*call, before), Vec::new())
    }

    fn reply(&mut self, reply: &Reply) -> Output {
        let Some(wait) = self.wait.take() else {
            return Output::Unawaited;
        };
        if !fits(reply, &wait.item) && self.flaw != Flaw::OtherReply {
            let item = wait.item;
            self.wait = Some(wait);
            return Output::Item(OTHER_REPLY_AWAITED, item);
        }
        let mut replies = wait.replies;
        replies.push(*reply);
        self.go_on(wait.begun, replies)
    }

    /// Runs a start or a call with the replies so far.
    fn go_on(&mut self, begun: Begun, replies: Vec<Reply>) -> Output {
        let mut driver = Feeding(replies.iter());
        let ended = match &begun {
            Begun::Start(o, listed) => until_item(|| {
                let (config, now, flags) = (o.config, o.now, o.flags);
                Runtime::new(config, listed, o.boot_id, now, flags, &mut driver)
            })
            .map(|result| self.started(result, listed)),
            Begun::Call(call, before) => {
                let mut runtime = Box::new(copy(before));
                if self.flaw == Flaw::HeldLow {
                    hold_low(&mut runtime);
                }
                let ended = until_item(|| apply(&mut runtime, call, &mut driver));
                self.runtime = Some(runtime);
                ended.map(|answer| Output::answer(&answer))
            }
        };
        ended.unwrap_or_else(|handed| {
            let item = handed.0;
            self.wait = Some(Wait {
                begun,
                replies,
                item,
            });
            Output::Item(0, item)
        })
    }

    fn started(
        &mut self,
        result: Result<Runtime, oracle::runtime_core::ConfigError>,
        listed: &[Capability],
    ) -> Output {
        match result {
            Ok(runtime) => {
                self.runtime = Some(Box::new(runtime));
                Output::Started
            }
            Err(error) => {
                if self.flaw == Flaw::KeptList {
                    self.listed = listed.to_vec();
                }
                Output::StartRefused(refusal(error))
            }
        }
    }

    fn read(&self, reading: Reading) -> Output {
        match &self.runtime {
            Some(runtime) => crate::weave::read(runtime, reading),
            None => Output::NoRuntime,
        }
    }
}

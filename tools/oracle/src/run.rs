//! The runner: runs a life on the original and keeps a trace of all that shows.

use crate::driver::{Awaited, Item, Replied, ScriptedDriver};
use crate::life::{config_fields, Call, Counter, Life, Start, Step};
use runtime_core::{
    Capability, Config, ConfigError, Driver, EstopSignal, Hidden, Lease, Reason, Receipt, Runtime,
    RuntimeState, Snapshot, MAX_RESOURCES,
};
use std::panic::{catch_unwind, resume_unwind, AssertUnwindSafe};
use std::sync::atomic::AtomicU32;

/// What a trace holds besides items, answers and the readings after each call.
#[derive(Clone, Copy, Debug, Default, PartialEq, Eq)]
pub struct Options {
    /// The readings while each item is awaited. They cost one more run of the call each.
    pub waits: bool,
    /// What no reading shows, in the build with `counters`.
    pub hidden: bool,
}

impl Options {
    pub const ALL: Self = Self {
        waits: true,
        hidden: true,
    };
}

/// Everything public of a runtime.
#[derive(Clone, Debug)]
pub struct Readings {
    pub snapshot: Snapshot,
    pub state: RuntimeState,
    pub epoch: u64,
    pub boot_id: u64,
    pub flags: u32,
    pub leases: [Option<Lease>; MAX_RESOURCES],
    pub receipt_count: usize,
    /// Oldest first.
    pub receipts: Vec<Receipt>,
    pub config: Config,
    pub capabilities: Vec<Capability>,
    /// Only if asked for, and in the build with `counters`.
    pub hidden: Option<Hidden>,
}

impl Readings {
    pub fn of(runtime: &Runtime, options: Options) -> Self {
        let receipt_count = runtime.receipt_count();
        Self {
            snapshot: runtime.snapshot(),
            state: runtime.state(),
            epoch: runtime.epoch(),
            boot_id: runtime.boot_id(),
            flags: runtime.flags(),
            leases: std::array::from_fn(|i| runtime.lease(i as u8)),
            receipt_count,
            receipts: (0..receipt_count)
                .filter_map(|i| runtime.receipt(i))
                .collect(),
            config: runtime.config(),
            capabilities: runtime.capabilities().copied().collect(),
            hidden: if options.hidden {
                hidden(runtime)
            } else {
                None
            },
        }
    }
}

impl PartialEq for Readings {
    fn eq(&self, other: &Self) -> bool {
        (self.snapshot, self.state, self.epoch) == (other.snapshot, other.state, other.epoch)
            && (self.boot_id, self.flags) == (other.boot_id, other.flags)
            && self.leases == other.leases
            && (self.receipt_count, &self.receipts) == (other.receipt_count, &other.receipts)
            && config_fields(&self.config) == config_fields(&other.config)
            && self.capabilities == other.capabilities
            && self.hidden == other.hidden
    }
}

impl Eq for Readings {}

/// What a call answers.
#[derive(Clone, Copy, Debug, PartialEq, Eq)]
pub enum Answer {
    /// `tick`, `update_state`, `emergency_stop` and `set`.
    None,
    /// `poll_estop`: whether it saw a raise.
    Polled(bool),
    /// `recover_local` and `cancel`.
    Done(Result<(), Reason>),
    /// `acquire` and `renew`.
    Lease(Result<Lease, Reason>),
    /// `submit`.
    Receipt(Receipt),
}

/// One driver call with its reply.
#[derive(Clone, Debug, PartialEq, Eq)]
pub struct ItemTrace {
    pub item: Item,
    pub replied: Replied,
    /// The readings while the item is awaited; none in a start, which has no runtime yet.
    pub awaited: Option<Readings>,
}

#[derive(Clone, Debug, PartialEq, Eq)]
pub struct StartTrace {
    pub start: Start,
    pub items: Vec<ItemTrace>,
    /// How many replies were left and dropped.
    pub unused: usize,
    pub answer: Result<Readings, ConfigError>,
}

#[derive(Clone, Debug, PartialEq, Eq)]
pub struct CallTrace {
    pub step: Step,
    pub items: Vec<ItemTrace>,
    /// How many replies were left and dropped.
    pub unused: usize,
    pub answer: Answer,
    pub after: Readings,
}

#[derive(Clone, Debug, PartialEq, Eq)]
pub struct LifeTrace {
    pub start: StartTrace,
    pub calls: Vec<CallTrace>,
    /// The calls of a life whose start was refused.
    pub skipped: Vec<Step>,
}

/// Runs a whole life.
///
/// # Panics
/// If the life holds a `Call::Set` and this is not the build with `counters`, or the number is too
/// large for the counter.
pub fn run_life(life: &Life, options: Options) -> LifeTrace {
    let (start, runner) = Runner::start(&life.start, options);
    let (calls, skipped) = match runner {
        Some(mut runner) => {
            let calls = life.steps.iter().map(|step| runner.call(step)).collect();
            (calls, Vec::new())
        }
        None => (Vec::new(), life.steps.clone()),
    };
    LifeTrace {
        start,
        calls,
        skipped,
    }
}

/// One runtime with its driver, for a life that is made while it runs.
pub struct Runner {
    runtime: Runtime,
    executed: [i32; 2],
    options: Options,
}

impl Runner {
    /// No runner if the start is refused.
    pub fn start(start: &Start, options: Options) -> (StartTrace, Option<Self>) {
        let mut driver = ScriptedDriver::new(&start.replies, [0; 2]);
        let result = Runtime::new(
            start.config,
            &start.capabilities,
            start.boot_id,
            start.now,
            start.flags,
            &mut driver,
        );
        let (unused, executed) = (driver.unused(), driver.executed());
        let items = driver.into_log().into_iter();
        let trace = StartTrace {
            start: start.clone(),
            items: items.map(|logged| item_trace(logged, None)).collect(),
            unused,
            answer: match &result {
                Ok(runtime) => Ok(Readings::of(runtime, options)),
                Err(error) => Err(*error),
            },
        };
        let runner = result.ok().map(|runtime| Self {
            runtime,
            executed,
            options,
        });
        (trace, runner)
    }

    /// # Panics
    /// If the call is `Call::Set` and this is not the build with `counters`, or the number is too
    /// large for the counter.
    pub fn call(&mut self, step: &Step) -> CallTrace {
        let before = self.options.waits.then(|| copy(&self.runtime));
        let executed = self.executed;
        let mut driver = ScriptedDriver::new(&step.replies, executed);
        let answer = apply(&mut self.runtime, &step.call, &mut driver);
        self.executed = driver.executed();
        let unused = driver.unused();
        let items = driver.into_log().into_iter().enumerate();
        let awaited = |index| {
            let runtime = before.as_ref().map(copy)?;
            Some(self.awaited(runtime, step, executed, index))
        };
        CallTrace {
            step: step.clone(),
            items: items
                .map(|(index, logged)| item_trace(logged, awaited(index)))
                .collect(),
            unused,
            answer,
            after: self.readings(),
        }
    }

    pub fn runtime(&self) -> &Runtime {
        &self.runtime
    }

    pub fn readings(&self) -> Readings {
        Readings::of(&self.runtime, self.options)
    }

    /// Runs the call again on a runtime as it was before it, up to the wait for one item.
    fn awaited(
        &self,
        mut runtime: Runtime,
        step: &Step,
        executed: [i32; 2],
        index: usize,
    ) -> Readings {
        let mut driver = ScriptedDriver::new(&step.replies, executed).stopping_at(index);
        let ended = catch_unwind(AssertUnwindSafe(|| {
            apply(&mut runtime, &step.call, &mut driver)
        }));
        match ended {
            Err(payload) if payload.is::<Awaited>() => Readings::of(&runtime, self.options),
            Err(payload) => resume_unwind(payload),
            Ok(_) => unreachable!("the second run of a call has the same items"),
        }
    }
}

fn item_trace((item, replied): (Item, Replied), awaited: Option<Readings>) -> ItemTrace {
    ItemTrace {
        item,
        replied,
        awaited,
    }
}

/// Makes one call with whichever driver.
///
/// # Panics
/// If the call is `Call::Set` and this is not the build with `counters`, or the number is too
/// large for the counter.
pub fn apply(runtime: &mut Runtime, call: &Call, driver: &mut impl Driver) -> Answer {
    match *call {
        Call::Tick { now } => runtime.tick(now, driver),
        Call::UpdateState { flags, now } => runtime.update_state(flags, now, driver),
        Call::EmergencyStop { now } => runtime.emergency_stop(now, driver),
        Call::PollEstop { raised, now } => {
            return Answer::Polled(runtime.poll_estop(&signal(raised), now, driver));
        }
        Call::RecoverLocal { now } => return Answer::Done(runtime.recover_local(now, driver)),
        Call::Acquire { request, now } => {
            return Answer::Lease(runtime.acquire(request, now, driver));
        }
        Call::Renew(r) => {
            let (owner, id) = (r.owner, r.lease_id);
            let answer = runtime.renew(owner, id, r.renewal, r.duration_ms, r.now, driver);
            return Answer::Lease(answer);
        }
        Call::Cancel {
            owner,
            lease_id,
            now,
        } => return Answer::Done(runtime.cancel(owner, lease_id, now, driver)),
        Call::Submit(o) => {
            let receipt = runtime.submit(o.action, o.principal, o.received_at, o.now, driver);
            return Answer::Receipt(receipt);
        }
        Call::Set { counter, value } => set(runtime, counter, value),
    }
    Answer::None
}

const _: () = assert!(!std::mem::needs_drop::<Runtime>());

pub fn copy(runtime: &Runtime) -> Runtime {
    // SAFETY: `Runtime` has no `Drop` and all its fields are `Copy`, so its bytes, taken
    // twice, are two runtimes of their own.
    unsafe { std::ptr::read(runtime) }
}

/// A signal that was raised this often; raising it in turn takes seconds for a large number.
fn signal(raised: u32) -> EstopSignal {
    // SAFETY: `EstopSignal` is `repr(transparent)` over an `AtomicU32`, of which every value
    // is sound.
    unsafe { std::mem::transmute::<AtomicU32, EstopSignal>(AtomicU32::new(raised)) }
}

#[cfg(feature = "counters")]
fn set(runtime: &mut Runtime, counter: Counter, value: u64) {
    match counter {
        Counter::Epoch => runtime.set_epoch(value),
        Counter::NextReceipt => runtime.set_next_receipt(value),
        Counter::NextLease => runtime.set_next_lease(value),
        Counter::InvalidCount => {
            let count = u16::try_from(value).expect("the count of rejections has 16 bits");
            runtime.set_invalid_count(count);
        }
    }
}

#[cfg(not(feature = "counters"))]
fn set(_: &mut Runtime, counter: Counter, _: u64) {
    panic!("`set {}` needs the build with counters", counter.name());
}

#[cfg(feature = "counters")]
fn hidden(runtime: &Runtime) -> Option<Hidden> {
    Some(runtime.hidden())
}

#[cfg(not(feature = "counters"))]
fn hidden(_: &Runtime) -> Option<Hidden> {
    None
}

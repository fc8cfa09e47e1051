//! A life as the protocol sees it: one input after another, each with the output that the
//! Rust's behaviour demands.

use oracle::driver::{Item, Replied};
use oracle::life::{config_fields, Call, Counter};
use oracle::run::{Answer, ItemTrace, LifeTrace, Readings, StartTrace};
use oracle::runtime_core::{
    Capability, ConfigError, Lease, Observation, Receipt, RuntimeState, Snapshot,
};

/// A reply of the host, of one of the four kinds.
#[derive(Clone, Copy, Debug, PartialEq, Eq)]
pub enum Reply {
    /// None: the driver failed.
    Observed(Option<Observation>),
    Executed(bool),
    FellBack(bool),
    Recorded,
}

#[derive(Clone, Copy, Debug, PartialEq, Eq)]
pub enum Reading {
    State,
    Epoch,
    BootId,
    Flags,
    ReceiptCount,
    Config,
    Snapshot,
    /// Of an axis.
    Lease(u64),
    /// By index.
    Capability(u64),
    /// By index, the oldest first.
    Receipt(u64),
}

#[derive(Clone, Copy, Debug, PartialEq, Eq)]
pub enum Input {
    Calls(Call),
    Replies(Reply),
    Reads(Reading),
}

/// What a reading shows.
#[derive(Clone, Copy, Debug, PartialEq, Eq)]
pub enum Value {
    State(RuntimeState),
    Number(u64),
    Config([(&'static str, u32); 6]),
    Snapshot(Snapshot),
    Lease(Option<Lease>),
    Capability(Option<Capability>),
    Receipt(Option<Receipt>),
}

#[derive(Clone, Copy, Debug, PartialEq, Eq)]
pub enum Output {
    Started,
    /// 101 to 105.
    StartRefused(u16),
    Hands(Item),
    Answers(Answer),
    /// 111 or 113, with the awaited item.
    Reminds(u16, Item),
    /// 112.
    Refuses(u16),
    Shows(Value),
    NoRuntime,
}

/// What happens at one moment of a life.
#[derive(Clone, Copy, Debug, PartialEq, Eq)]
pub enum Event {
    /// The start, with what comes out of it.
    Start(Output),
    Input(Input, Output),
    /// No input: a counter is set between two calls, and nothing comes out.
    Set(Counter, u64),
}

/// Where a moment leaves the runtime.
#[derive(Clone, Copy, Debug)]
pub struct Place<'a> {
    /// The item whose reply is awaited.
    pub awaited: Option<Item>,
    /// What readings show; none in a start and after a refused one.
    pub readings: Option<&'a Readings>,
}

#[derive(Clone, Copy, Debug)]
pub struct Moment<'a> {
    pub event: Event,
    pub place: Place<'a>,
}

/// The life with nothing out of place, from its trace alone.
pub fn moments(trace: &LifeTrace) -> Vec<Moment<'_>> {
    let mut all = Vec::new();
    start(&trace.start, &mut all);
    for call in &trace.calls {
        let after = Some(&call.after);
        if let Call::Set { counter, value } = call.step.call {
            all.push(Moment {
                event: Event::Set(counter, value),
                place: idle(after),
            });
            continue;
        }
        let input = Some(Input::Calls(call.step.call));
        let end = Output::Answers(call.answer);
        turn_by_turn(input, &call.items, end, after, &mut all);
    }
    // There is no runtime for the calls after a refused start.
    for step in &trace.skipped {
        let input = Some(Input::Calls(step.call));
        turn_by_turn(input, &[], Output::NoRuntime, None, &mut all);
    }
    all
}

fn idle(readings: Option<&Readings>) -> Place<'_> {
    Place {
        awaited: None,
        readings,
    }
}

fn start<'a>(trace: &'a StartTrace, all: &mut Vec<Moment<'a>>) {
    let (end, after) = match &trace.answer {
        Ok(readings) => (Output::Started, Some(readings)),
        Err(error) => (Output::StartRefused(refusal(*error)), None),
    };
    turn_by_turn(None, &trace.items, end, after, all);
}

/// The number that the port gives to a refused start.
pub const fn refusal(error: ConfigError) -> u16 {
    match error {
        ConfigError::InvalidBootId => 101,
        ConfigError::InvalidConfig => 102,
        ConfigError::InvalidCapability => 103,
        ConfigError::DuplicateCapability => 104,
        ConfigError::Driver => 105,
    }
}

/// A start, which is no input, or a call: each item is handed out, then replied to; the end
/// comes last.
fn turn_by_turn<'a>(
    mut input: Option<Input>,
    items: &'a [ItemTrace],
    end: Output,
    after: Option<&'a Readings>,
    all: &mut Vec<Moment<'a>>,
) {
    let event = |input: Option<Input>, output| match input {
        Some(input) => Event::Input(input, output),
        None => Event::Start(output),
    };
    for trace in items {
        all.push(Moment {
            event: event(input, Output::Hands(trace.item)),
            place: Place {
                awaited: Some(trace.item),
                readings: trace.awaited.as_ref(),
            },
        });
        input = Some(Input::Replies(reply(trace)));
    }
    all.push(Moment {
        event: event(input, end),
        place: idle(after),
    });
}

/// The reply that the driver gave, in the kind of its item.
fn reply(trace: &ItemTrace) -> Reply {
    let good = trace.replied != Replied::Failed;
    match (trace.item, trace.replied) {
        (Item::Observe { .. }, Replied::Observed(seen)) => Reply::Observed(Some(seen)),
        (Item::Observe { .. }, _) => Reply::Observed(None),
        (Item::Execute { .. }, _) => Reply::Executed(good),
        (Item::Fallback { .. }, _) => Reply::FellBack(good),
        (Item::Record { .. }, _) => Reply::Recorded,
    }
}

impl Reading {
    /// The value that the Rust had.
    pub fn of(self, readings: &Readings) -> Value {
        match self {
            Self::State => Value::State(readings.state),
            Self::Epoch => Value::Number(readings.epoch),
            Self::BootId => Value::Number(readings.boot_id),
            Self::Flags => Value::Number(readings.flags.into()),
            Self::ReceiptCount => Value::Number(readings.receipt_count as u64),
            Self::Config => Value::Config(config_fields(&readings.config)),
            Self::Snapshot => Value::Snapshot(readings.snapshot),
            Self::Lease(axis) => Value::Lease(at(&readings.leases, axis).flatten()),
            Self::Capability(index) => Value::Capability(at(&readings.capabilities, index)),
            Self::Receipt(index) => Value::Receipt(at(&readings.receipts, index)),
        }
    }
}

fn at<T: Copy>(list: &[T], index: u64) -> Option<T> {
    list.get(usize::try_from(index).ok()?).copied()
}

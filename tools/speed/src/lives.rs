//! Operations in whole lives: the proved code by its byte entry, `rolthai_run`, beside the Rust's
//! calls, the same lives for both. The time of the entry is that of a life less that of its
//! beginning. The decoding and encoding inside it count; the making of the input does not.

use crate::timed;
use definitions::turns::{Reading, Reply};
use oracle::life::{Call, Order};
use oracle::run::apply;
use runtime_core::{
    profile, Action, Bounds, Config, Decision, Driver, DriverError, LeaseRequest, Observation,
    Reason, Receipt, Runtime, RuntimeState, RECEIPT_CAPACITY,
};
use std::hint::black_box;
use std::mem::size_of;
use std::ops::Range;
use wire::format::{Input, Opening, Output, OUTPUT_BYTES};
use wire::weave::read;

/// Operations of a life before those that are timed: they fill the rings.
const BEFORE: u64 = 100;
const TIMED: u64 = 1_000;
const ROUNDS: usize = 100;

pub const BOOT: u64 = 1;
pub const OWNER: u64 = 7;
/// The time of every call but an idle tick.
pub const NOW: u64 = 1;
pub const REQUEST: LeaseRequest = LeaseRequest {
    owner: OWNER,
    resource: 0,
    capabilities: 1 << profile::DRIVE | 1 << profile::STOP,
    duration_ms: 1000,
    limits: [Bounds::ANY; 2],
};
const ACQUIRE: Input = Input::Call(Call::Acquire {
    request: REQUEST,
    now: NOW,
});
pub const SEEN: Observation = Observation {
    parameters: [5, 6],
    state: 0,
};
const OBSERVED: Input = Input::Reply(Reply::Observed(Some(SEEN)));
const EXECUTED: Input = Input::Reply(Reply::Executed(true));
const FELL_BACK: Input = Input::Reply(Reply::FellBack(true));
const RECORDED: Input = Input::Reply(Reply::Recorded);
/// What both sides are asked at the end of a life.
const READINGS: [Reading; 4] = [
    Reading::Snapshot,
    Reading::Lease(0),
    Reading::Receipt(0),
    Reading::Receipt(RECEIPT_CAPACITY as u64 - 1),
];

/// An operation that is timed.
struct Figure {
    name: &'static str,
    /// Whether a lease stands before the first one.
    leased: bool,
    invalid_limit: u16,
    /// The records of operation n, from 0, at this epoch.
    records: fn(u64, u64) -> Vec<Input>,
    /// The operations with these numbers in the Rust.
    rust: fn(&mut Runtime, Range<u64>),
    /// At the end of a life: the state, the receipts kept, the decision of the newest.
    end: (RuntimeState, usize, Option<Decision>),
}

const FIGURES: [Figure; 5] = [
    Figure {
        name: "tick, idle",
        leased: false,
        invalid_limit: 32,
        records: |n, _| vec![Input::Call(Call::Tick { now: n })],
        rust: |runtime, numbers| each(runtime, numbers, |r, n| r.tick(n, &mut Prompt)),
        end: (RuntimeState::SafeIdle, 0, None),
    },
    Figure {
        name: "tick, one lease",
        leased: true,
        invalid_limit: 32,
        records: |_, _| vec![Input::Call(Call::Tick { now: NOW })],
        rust: |runtime, numbers| each(runtime, numbers, |r, _| r.tick(black_box(NOW), &mut Prompt)),
        end: (RuntimeState::Armed, 1, Some(Decision::Control)),
    },
    Figure {
        name: "acquire and cancel",
        leased: false,
        invalid_limit: 32,
        records: acquire_cancel_records,
        rust: |runtime, numbers| each(runtime, numbers, acquire_cancel),
        end: (
            RuntimeState::SafeIdle,
            RECEIPT_CAPACITY,
            Some(Decision::Fallback),
        ),
    },
    Figure {
        name: "submit, accepted",
        leased: true,
        invalid_limit: 32,
        records: |n, epoch| vec![submit(n + 1, epoch), OBSERVED, EXECUTED, OBSERVED, RECORDED],
        rust: |runtime, numbers| submit_each(runtime, numbers, |n| n + 1),
        end: (
            RuntimeState::Armed,
            RECEIPT_CAPACITY,
            Some(Decision::Executed),
        ),
    },
    Figure {
        name: "submit, rejected, full ring",
        leased: true,
        // The storm limit: more than the rejections of a life.
        invalid_limit: u16::MAX,
        records: |_, epoch| vec![submit(0, epoch), RECORDED],
        rust: |runtime, numbers| submit_each(runtime, numbers, |_| 0),
        end: (
            RuntimeState::Armed,
            RECEIPT_CAPACITY,
            Some(Decision::Rejected),
        ),
    },
];

/// A driver that answers at once; the compiler does not know what.
pub struct Prompt;

impl Driver for Prompt {
    fn observe(&mut self, _: u8) -> Result<Observation, DriverError> {
        Ok(black_box(SEEN))
    }
    fn execute(&mut self, _: u16, _: [i32; 2]) -> Result<(), DriverError> {
        Ok(())
    }
    fn fallback(&mut self, _: u8, _: Reason) -> Result<(), DriverError> {
        Ok(())
    }
    fn record_receipt(&mut self, receipt: &Receipt) {
        black_box(receipt);
    }
}

/// Does the operations. The compiler knows nothing of the runtime and the number that each finds,
/// and has to make each answer.
pub fn each<T>(runtime: &mut Runtime, numbers: Range<u64>, operation: impl Fn(&mut Runtime, u64) -> T) {
    for n in numbers {
        let answer = operation(black_box(&mut *runtime), black_box(n));
        black_box(&answer);
    }
}

/// The lease of operation n has the number n + 1.
fn acquire_cancel_records(n: u64, _: u64) -> Vec<Input> {
    let cancel = Call::Cancel {
        owner: OWNER,
        lease_id: n + 1,
        now: NOW,
    };
    vec![ACQUIRE, RECORDED, Input::Call(cancel), FELL_BACK, RECORDED]
}

pub fn acquire_cancel(runtime: &mut Runtime, n: u64) -> Result<(), Reason> {
    black_box(&runtime.acquire(black_box(REQUEST), NOW, &mut Prompt));
    runtime.cancel(OWNER, n + 1, NOW, &mut Prompt)
}

pub fn order(number: u64, epoch: u64) -> Action {
    Action {
        boot_id: BOOT,
        requester: OWNER,
        lease_id: 1,
        action_id: number,
        sequence: number,
        capability: profile::DRIVE,
        based_on_epoch: epoch,
        execute_after: 0,
        deadline: 100,
        valid_for_ms: 100,
        parameters: SEEN.parameters,
    }
}

fn submit(number: u64, epoch: u64) -> Input {
    let action = order(number, epoch);
    let order = Order {
        action,
        principal: OWNER,
        received_at: NOW,
        now: NOW,
    };
    Input::Call(Call::Submit(order))
}

pub fn submit_each(runtime: &mut Runtime, numbers: Range<u64>, number: impl Fn(u64) -> u64) {
    let epoch = runtime.epoch();
    each(runtime, numbers, |runtime, n| {
        let action = black_box(order(number(n), epoch));
        runtime.submit(action, OWNER, NOW, NOW, &mut Prompt)
    });
}

fn config(figure: &Figure) -> Config {
    Config {
        invalid_limit: figure.invalid_limit,
        ..Config::default()
    }
}

fn started(figure: &Figure) -> Result<Runtime, String> {
    Runtime::new(
        config(figure),
        &profile::CAPABILITIES,
        BOOT,
        0,
        0,
        &mut Prompt,
    )
    .map_err(|error| format!("{}: the Rust does not start: {error:?}", figure.name))
}

/// The Rust before the first operation.
fn prepared(figure: &Figure) -> Result<Runtime, String> {
    let mut runtime = started(figure)?;
    if figure.leased {
        runtime
            .acquire(REQUEST, NOW, &mut Prompt)
            .map_err(|reason| format!("{}: the Rust gives no lease: {reason:?}", figure.name))?;
    }
    Ok(runtime)
}

/// A life with so many operations, and the readings at its end.
fn life(figure: &Figure, epoch: u64, operations: u64) -> Vec<Input> {
    let mut life = profile::CAPABILITIES.map(Input::Capability).to_vec();
    let config = config(figure);
    life.push(Input::Start(Opening {
        boot_id: BOOT,
        now: 0,
        flags: 0,
        config,
    }));
    life.extend([FELL_BACK, FELL_BACK]);
    if figure.leased {
        life.extend([ACQUIRE, RECORDED]);
    }
    life.extend((0..operations).flat_map(|n| (figure.records)(n, epoch)));
    life.extend(READINGS.map(Input::Read));
    life
}

fn encoded(life: &[Input]) -> Vec<u8> {
    let mut bytes = Vec::new();
    life.iter().for_each(|input| input.encode(&mut bytes));
    bytes
}

/// What the Rust gives for the records of a life, without the items.
fn demanded(figure: &Figure, life: &[Input]) -> Result<Vec<Output>, String> {
    let mut runtime = started(figure)?;
    let outputs = life.iter().filter_map(|input| match input {
        Input::Capability(_) => Some(Output::Listed),
        Input::Start(_) => Some(Output::Started),
        Input::Call(call) => Some(Output::answer(&apply(&mut runtime, call, &mut Prompt))),
        Input::Read(reading) => Some(read(&runtime, *reading)),
        Input::Reply(_) | Input::Malformed(_) => None,
    });
    Ok(outputs.collect())
}

/// What the entry wrote, without the items; none for what is no output record.
fn answers(written: &[u8]) -> Vec<Option<Output>> {
    let records = written.chunks(OUTPUT_BYTES);
    let outputs = records.map(|bytes| bytes.try_into().ok().and_then(Output::decode));
    outputs
        .filter(|output| !matches!(output, Some(Output::Item(0, _))))
        .collect()
}

/// Fails unless the entry's answers are the Rust's, from the first to the last.
fn same_answers(figure: &Figure, life: &[Input], written: &[u8]) -> Result<(), String> {
    let name = figure.name;
    let (answers, demanded) = (answers(written), demanded(figure, life)?);
    for (at, demanded) in demanded.iter().enumerate() {
        let answer = answers.get(at).copied().flatten();
        if answer != Some(*demanded) {
            return Err(format!(
                "{name}: answer {at} is {answer:?}, the Rust's {demanded:?}"
            ));
        }
    }
    if written.len() != life.len() * OUTPUT_BYTES || answers.len() != demanded.len() {
        return Err(format!(
            "{name}: {} bytes for {} records",
            written.len(),
            life.len()
        ));
    }
    Ok(())
}

/// Fails unless the Rust that was timed ends as the entry does, and as the figure means it.
fn same_end(figure: &Figure, written: &[u8], timed: &Runtime) -> Result<(), String> {
    let name = figure.name;
    let answers = answers(written);
    let last = answers.len().saturating_sub(READINGS.len());
    for (reading, answer) in READINGS.into_iter().zip(&answers[last..]) {
        let rust = read(timed, reading);
        if *answer != Some(rust) {
            return Err(format!(
                "{name}: at the end {answer:?}, the Rust that was timed {rust:?}"
            ));
        }
    }
    let kept = timed.receipt_count();
    let newest = kept.checked_sub(1).and_then(|at| timed.receipt(at));
    let end = (timed.state(), kept, newest.map(|receipt| receipt.decision));
    if end != figure.end {
        return Err(format!(
            "{name}: not the life that is meant, it ends with {end:?}"
        ));
    }
    Ok(())
}

/// Nanoseconds of an operation on both sides, the best of all rounds.
struct Row {
    proved: f64,
    rust: f64,
    /// The records of an operation.
    records: usize,
}

fn measured(figure: &Figure) -> Result<Row, String> {
    let epoch = prepared(figure)?.epoch();
    let [begun, whole] = [BEFORE, BEFORE + TIMED].map(|operations| life(figure, epoch, operations));
    let (begun, input) = (encoded(&begun), encoded(&whole));
    let mut output = vec![0; whole.len() * OUTPUT_BYTES];
    let (mut least_begun, mut least_whole, mut least_rust) = (f64::MAX, f64::MAX, f64::MAX);
    for round in 1..=ROUNDS {
        let (time, _) = timed(|| wire::ffi::run(black_box(&begun), black_box(&mut output)));
        least_begun = least_begun.min(time);
        let (time, written) = timed(|| wire::ffi::run(black_box(&input), black_box(&mut output)));
        least_whole = least_whole.min(time);
        let mut runtime = prepared(figure)?;
        (figure.rust)(&mut runtime, 0..BEFORE);
        let (time, ()) = timed(|| (figure.rust)(&mut runtime, BEFORE..BEFORE + TIMED));
        least_rust = least_rust.min(time);
        if round == ROUNDS {
            same_answers(figure, &whole, &output[..written])?;
            same_end(figure, &output[..written], &runtime)?;
        }
    }
    Ok(Row {
        proved: (least_whole - least_begun) / TIMED as f64,
        rust: least_rust / TIMED as f64,
        records: (figure.records)(0, epoch).len(),
    })
}

/// Prints a line for each figure; fails if the two sides answer something else.
pub fn table() -> Result<(), String> {
    println!("an operation in a life, {TIMED} after {BEFORE} others, best of {ROUNDS}");
    println!("proved: by rolthai_run, with its decoding and encoding");
    let [name, records, proved, single, rust, ratio] =
        ["", "records", "proved ns", "a record", "Rust ns", "ratio"];
    println!("{name:<30} {records:>7} {proved:>10} {single:>10} {rust:>10} {ratio:>7}");
    for figure in &FIGURES {
        let Row {
            proved,
            rust,
            records,
        } = measured(figure)?;
        let (name, single, ratio) = (figure.name, proved / records as f64, proved / rust);
        println!("{name:<30} {records:>7} {proved:>10.1} {single:>10.1} {rust:>10.1} {ratio:>7.2}");
    }
    let (proved, rust) = (proved_bytes()?, size_of::<Runtime>());
    println!("{:<30} {:>18} {:>21}", "bytes of state, lent", proved, rust);
    Ok(())
}

/// The bytes of a lent runtime, as the fact in its proofs has them.
fn proved_bytes() -> Result<usize, String> {
    include_str!("../../../crates/runtime/proofs/Sizes.antt")
        .lines()
        .find(|line| line.starts_with("pub runtime-bytes : "))
        .and_then(|line| line.rsplit(' ').next()?.parse().ok())
        .ok_or_else(|| "there is no runtime-bytes in Sizes.antt".to_owned())
}

//! Operations through the C functions of libhost.a, over words that this program lends, beside the Rust's. Both sides are
//! out of line: the archive is linked as a host links it, and each call of the Rust is kept out of its loop.
//!
//! A host pays for more than the calls: the Rust hands the driver each item's fields and answers with the lease or the
//! receipt, and a host has to read them. So each loop is timed three times: the calls and the replies alone, by a host that
//! knows which items come; with every item read, and replied to by its kind; with the lease or the receipt of each answer
//! read too. The last one gives a host all that the Rust gives.

use crate::host::{Host, ALL, ALONE, ITEMS, KEPT, WORDS};
use crate::lives::{order, Prompt, BOOT, NOW, OWNER, REQUEST, SEEN};
use crate::timed;
use definitions::turns::Reading;
use oracle::life::{Call, Order, Renewal};
use oracle::run::{apply, Options, Readings};
use runtime_core::{
    profile, Action, Capability, Config, EstopSignal, Lease, LeaseRequest, Reason, Receipt, Runtime,
};
use std::hint::black_box;
use std::ops::Range;
use wire::format::{Input, Output, OutputWords};
use wire::weave::{plain_readings, read};

/// Laps before those that are timed: they fill the rings.
const BEFORE: u64 = 100;
/// With those before, less than the storm limit of the rejections.
const TIMED: u64 = 10_000;
const ROUNDS: usize = 60;
/// The ratio to stay within.
const LIMIT: f64 = 1.5;

type Laps = fn(&mut Host, Range<u64>);

/// The loops of an operation, by what is read.
macro_rules! loops {
    ($operation:ident) => {
        [
            |host, numbers| laps(host, numbers, $operation::<ALONE>),
            |host, numbers| laps(host, numbers, $operation::<ITEMS>),
            |host, numbers| laps(host, numbers, $operation::<ALL>),
            |host, numbers| laps(host, numbers, $operation::<KEPT>),
        ]
    };
}

fn laps(host: &mut Host, numbers: Range<u64>, operation: impl Fn(&mut Host, u64)) {
    for n in numbers {
        operation(black_box(&mut *host), black_box(n));
    }
}

fn idle_tick<const READ: u8>(host: &mut Host, n: u64) {
    let answer = host.tick(n);
    host.end::<READ>(answer, |_| answer);
}

fn leased_tick<const READ: u8>(host: &mut Host, _: u64) {
    let answer = host.tick(black_box(NOW));
    host.end::<READ>(answer, |_| answer);
}

fn acquire_cancel<const READ: u8>(host: &mut Host, n: u64) {
    let request = black_box(host.request);
    let answer = host.acquire(&request);
    host.end::<READ>(answer, |host| host.recorded());
    let answer = host.cancel(n + 1, NOW);
    host.end::<READ>(answer, |host| {
        host.fell_back();
        host.recorded()
    });
}

/// The words of `lives::order`.
fn order_words(number: u64, capability: u16, epoch: u64) -> [u64; 15] {
    let [value0, value1] = SEEN.parameters.map(|value| u64::from(value as u32));
    [
        NOW,
        OWNER,
        NOW,
        BOOT,
        OWNER,
        1,
        number,
        number,
        u64::from(capability),
        epoch,
        0,
        100,
        100,
        value0,
        value1,
    ]
}

fn accept<const READ: u8>(host: &mut Host, number: u64, capability: u16) {
    let order = black_box(order_words(number, capability, host.epoch));
    let answer = host.submit(&order);
    host.end::<READ>(answer, |host| {
        host.observed();
        host.executed();
        host.observed();
        host.recorded()
    });
}

fn reject<const READ: u8>(host: &mut Host, capability: u16) {
    let order = black_box(order_words(0, capability, host.epoch));
    let answer = host.submit(&order);
    host.end::<READ>(answer, |host| host.recorded());
}

fn submit_accepted<const READ: u8>(host: &mut Host, n: u64) {
    accept::<READ>(host, n + 1, profile::DRIVE);
}

fn submit_rejected<const READ: u8>(host: &mut Host, _: u64) {
    reject::<READ>(host, profile::DRIVE);
}

fn expiry<const READ: u8>(host: &mut Host, n: u64) {
    let mut request = host.request;
    request[0] = 2 * n + 1;
    let request = black_box(request);
    let answer = host.acquire(&request);
    host.end::<READ>(answer, |host| host.recorded());
    let answer = host.tick(2 * n + 2);
    host.end::<READ>(answer, |host| {
        host.fell_back();
        host.recorded()
    });
    let answer = host.update_state(0, 2 * n + 2);
    host.end::<READ>(answer, |_| answer);
}

fn submit_both<const READ: u8>(host: &mut Host, n: u64) {
    accept::<READ>(host, n + 1, 16);
    reject::<READ>(host, 16);
}

fn renewed<const READ: u8>(host: &mut Host, n: u64) {
    let answer = host.renew(1, n + 1, black_box(1000), NOW);
    host.end::<READ>(answer, |host| host.recorded());
}

fn polled<const READ: u8>(host: &mut Host, n: u64) {
    let answer = host.poll_estop(black_box(0), n);
    host.end::<READ>(answer, |_| answer);
}

fn stopped<const READ: u8>(host: &mut Host, n: u64) {
    let answer = host.emergency_stop(n);
    host.end::<READ>(answer, |host| host.fall_backs(2));
    let answer = host.update_state(black_box(0), n);
    host.end::<READ>(answer, |_| answer);
    let answer = host.recover_local(n);
    host.end::<READ>(answer, |host| host.fall_backs(2));
}

/// The Rust's calls, each out of line.
mod rust {
    use super::*;

    #[inline(never)]
    pub fn tick(runtime: &mut Runtime, now: u64) {
        runtime.tick(now, &mut Prompt);
    }

    #[inline(never)]
    pub fn update_state(runtime: &mut Runtime, flags: u32, now: u64) {
        runtime.update_state(flags, now, &mut Prompt);
    }

    #[inline(never)]
    pub fn emergency_stop(runtime: &mut Runtime, now: u64) {
        runtime.emergency_stop(now, &mut Prompt);
    }

    #[inline(never)]
    pub fn poll_estop(runtime: &mut Runtime, signal: &EstopSignal, now: u64) -> bool {
        runtime.poll_estop(signal, now, &mut Prompt)
    }

    #[inline(never)]
    pub fn recover_local(runtime: &mut Runtime, now: u64) -> Result<(), Reason> {
        runtime.recover_local(now, &mut Prompt)
    }

    #[inline(never)]
    pub fn acquire(
        runtime: &mut Runtime,
        request: LeaseRequest,
        now: u64,
    ) -> Result<Lease, Reason> {
        runtime.acquire(request, now, &mut Prompt)
    }

    #[inline(never)]
    pub fn renew(runtime: &mut Runtime, renewal: u64, duration_ms: u32) -> Result<Lease, Reason> {
        runtime.renew(OWNER, 1, renewal, duration_ms, NOW, &mut Prompt)
    }

    #[inline(never)]
    pub fn cancel(runtime: &mut Runtime, lease: u64) -> Result<(), Reason> {
        runtime.cancel(OWNER, lease, NOW, &mut Prompt)
    }

    #[inline(never)]
    pub fn submit(runtime: &mut Runtime, action: Action) -> Receipt {
        runtime.submit(action, OWNER, NOW, NOW, &mut Prompt)
    }

    pub fn laps(runtime: &mut Runtime, numbers: Range<u64>, operation: impl Fn(&mut Runtime, u64)) {
        for n in numbers {
            operation(black_box(&mut *runtime), black_box(n));
        }
    }

    pub fn submits(
        runtime: &mut Runtime,
        numbers: Range<u64>,
        capability: u16,
        number: impl Fn(u64) -> [Option<u64>; 2],
    ) {
        let epoch = runtime.epoch();
        laps(runtime, numbers, |runtime, n| {
            for number in number(n).into_iter().flatten() {
                let action = black_box(on(order(number, epoch), capability));
                black_box(&submit(runtime, action));
            }
        });
    }
}

fn on(action: Action, capability: u16) -> Action {
    Action {
        capability,
        ..action
    }
}

/// An operation that is timed.
struct Row {
    name: &'static str,
    invalid_limit: u16,
    /// Sixteen records on eight axes, or those of the profile.
    full: bool,
    /// Whether a lease stands before the first one.
    leased: bool,
    request: LeaseRequest,
    /// The calls of operation n, at this epoch.
    calls: fn(u64, u64) -> Vec<Call>,
    host: [Laps; 4],
    rust: fn(&mut Runtime, Range<u64>),
}

const BRIEF: LeaseRequest = LeaseRequest {
    duration_ms: 1,
    ..REQUEST
};
const FULL: LeaseRequest = LeaseRequest {
    capabilities: 1 << 8 | 1 << 16,
    ..REQUEST
};

const PLAIN: Row = Row {
    name: "",
    invalid_limit: 32,
    full: false,
    leased: false,
    request: REQUEST,
    calls: |_, _| Vec::new(),
    host: loops!(idle_tick),
    rust: |_, _| (),
};

const ROWS: [Row; 10] = [
    Row {
        name: "tick, idle",
        calls: |n, _| vec![Call::Tick { now: n }],
        host: loops!(idle_tick),
        rust: |runtime, numbers| rust::laps(runtime, numbers, rust::tick),
        ..PLAIN
    },
    Row {
        name: "tick, one lease",
        leased: true,
        calls: |_, _| vec![Call::Tick { now: NOW }],
        host: loops!(leased_tick),
        rust: |runtime, numbers| {
            rust::laps(runtime, numbers, |runtime, _| {
                rust::tick(runtime, black_box(NOW))
            })
        },
        ..PLAIN
    },
    Row {
        name: "acquire and cancel",
        calls: |n, _| vec![acquire_call(REQUEST, NOW), cancel_call(n + 1)],
        host: loops!(acquire_cancel),
        rust: |runtime, numbers| {
            rust::laps(runtime, numbers, |runtime, n| {
                black_box(&rust::acquire(runtime, black_box(REQUEST), NOW)).ok();
                black_box(rust::cancel(runtime, n + 1)).ok();
            });
        },
        ..PLAIN
    },
    Row {
        name: "submit, accepted",
        leased: true,
        calls: |n, epoch| vec![submit_call(n + 1, profile::DRIVE, epoch)],
        host: loops!(submit_accepted),
        rust: |runtime, numbers| {
            rust::submits(runtime, numbers, profile::DRIVE, |n| [Some(n + 1), None])
        },
        ..PLAIN
    },
    Row {
        name: "submit, rejected, full ring",
        invalid_limit: u16::MAX,
        leased: true,
        calls: |_, epoch| vec![submit_call(0, profile::DRIVE, epoch)],
        host: loops!(submit_rejected),
        rust: |runtime, numbers| {
            rust::submits(runtime, numbers, profile::DRIVE, |_| [Some(0), None])
        },
        ..PLAIN
    },
    Row {
        name: "acquire, expiry, update_state",
        request: BRIEF,
        calls: |n, _| {
            let now = 2 * n + 2;
            vec![
                acquire_call(BRIEF, now - 1),
                Call::Tick { now },
                Call::UpdateState { flags: 0, now },
            ]
        },
        host: loops!(expiry),
        rust: |runtime, numbers| {
            rust::laps(runtime, numbers, |runtime, n| {
                black_box(&rust::acquire(runtime, black_box(BRIEF), 2 * n + 1)).ok();
                rust::tick(runtime, 2 * n + 2);
                rust::update_state(runtime, 0, 2 * n + 2);
            });
        },
        ..PLAIN
    },
    Row {
        name: "submit, 16 records on 8 axes",
        invalid_limit: u16::MAX,
        full: true,
        leased: true,
        request: FULL,
        calls: |n, epoch| vec![submit_call(n + 1, 16, epoch), submit_call(0, 16, epoch)],
        host: loops!(submit_both),
        rust: |runtime, numbers| rust::submits(runtime, numbers, 16, |n| [Some(n + 1), Some(0)]),
    },
    Row {
        name: "renew",
        leased: true,
        calls: |n, _| vec![Call::Renew(renewal(n + 1, NOW))],
        host: loops!(renewed),
        rust: |runtime, numbers| {
            rust::laps(runtime, numbers, |runtime, n| {
                black_box(&rust::renew(runtime, n + 1, black_box(1000))).ok();
            });
        },
        ..PLAIN
    },
    Row {
        name: "poll, no raise",
        calls: |n, _| vec![Call::PollEstop { raised: 0, now: n }],
        host: loops!(polled),
        rust: |runtime, numbers| {
            let signal = EstopSignal::new();
            rust::laps(runtime, numbers, |runtime, n| {
                black_box(rust::poll_estop(runtime, black_box(&signal), n));
            });
        },
        ..PLAIN
    },
    Row {
        name: "stop, update_state, recover",
        calls: |now, _| {
            vec![
                Call::EmergencyStop { now },
                Call::UpdateState { flags: 0, now },
                Call::RecoverLocal { now },
            ]
        },
        host: loops!(stopped),
        rust: |runtime, numbers| {
            rust::laps(runtime, numbers, |runtime, n| {
                rust::emergency_stop(runtime, n);
                rust::update_state(runtime, black_box(0), n);
                black_box(rust::recover_local(runtime, n)).ok();
            });
        },
        ..PLAIN
    },
];

fn acquire_call(request: LeaseRequest, now: u64) -> Call {
    Call::Acquire { request, now }
}

fn cancel_call(lease_id: u64) -> Call {
    Call::Cancel {
        owner: OWNER,
        lease_id,
        now: NOW,
    }
}

pub fn renewal(number: u64, now: u64) -> Renewal {
    Renewal {
        owner: OWNER,
        lease_id: 1,
        renewal: number,
        duration_ms: 1000,
        now,
    }
}

fn submit_call(number: u64, capability: u16, epoch: u64) -> Call {
    Call::Submit(Order {
        action: on(order(number, epoch), capability),
        principal: OWNER,
        received_at: NOW,
        now: NOW,
    })
}

impl Row {
    fn config(&self) -> Config {
        Config {
            invalid_limit: self.invalid_limit,
            ..Config::default()
        }
    }

    fn capabilities(&self) -> Vec<Capability> {
        let record = |at: u16| Capability {
            id: at + 1,
            resource: ((at + 1) % 8) as u8,
            ..profile::CAPABILITIES[0]
        };
        if self.full {
            (0..16).map(record).collect()
        } else {
            profile::CAPABILITIES.to_vec()
        }
    }

    /// The Rust before the first operation.
    fn runtime(&self) -> Result<Runtime, String> {
        let (name, config) = (self.name, self.config());
        let mut runtime = Runtime::new(config, &self.capabilities(), BOOT, 0, 0, &mut Prompt)
            .map_err(|error| format!("{name}: the Rust does not start: {error:?}"))?;
        if self.leased {
            runtime
                .acquire(self.request, NOW, &mut Prompt)
                .map_err(|reason| format!("{name}: the Rust gives no lease: {reason:?}"))?;
        }
        Ok(runtime)
    }

    /// The host there.
    fn host(&self) -> Result<Box<Host>, String> {
        let mut host = Host::new(self.config(), &self.capabilities())?;
        let words = Input::Call(acquire_call(self.request, NOW)).words();
        host.request.copy_from_slice(&words[1..=9]);
        if self.leased {
            let request = host.request;
            let answer = host.acquire(&request);
            host.end::<ITEMS>(answer, |_| answer);
        }
        host.epoch = host.shown(&Input::Read(Reading::Epoch))[1];
        host.sum = 0;
        Ok(host)
    }

    /// All laps once on both sides, with every answer of the functions held against the Rust's.
    fn compared(&self) -> Result<(Box<Host>, Runtime), String> {
        let (name, mut host, mut runtime) = (self.name, self.host()?, self.runtime()?);
        let epoch = runtime.epoch();
        for n in 0..BEFORE + TIMED {
            host.kept.clear();
            self.host[usize::from(KEPT)](&mut host, n..n + 1);
            let calls = (self.calls)(n, epoch);
            let demanded = calls
                .iter()
                .map(|call| Output::answer(&apply(&mut runtime, call, &mut Prompt)).words());
            let demanded: Vec<OutputWords> = demanded.collect();
            if host.kept != demanded {
                return Err(format!(
                    "{name}, lap {n}: the answers are {:?}, the Rust's {demanded:?}",
                    host.kept
                ));
            }
        }
        same_end(name, &mut host, &runtime)?;
        Ok((host, runtime))
    }
}

/// Fails unless every reading shows the same on both sides.
pub fn same_end(name: &str, host: &mut Host, runtime: &Runtime) -> Result<(), String> {
    for reading in plain_readings() {
        let (shown, demanded) = (
            host.shown(&Input::Read(reading)),
            read(runtime, reading).words(),
        );
        if shown != demanded {
            return Err(format!(
                "{name}: {reading:?} is {shown:?}, the Rust's {demanded:?}"
            ));
        }
    }
    Ok(())
}

/// Nanoseconds of an operation, the best of all rounds: by what is read, and in the Rust.
fn measured(row: &Row) -> Result<([f64; 3], f64), String> {
    let name = row.name;
    let (compared, demanded) = row.compared()?;
    let demanded = Readings::of(&demanded, Options::ALL);
    let (mut proved, mut rust) = ([f64::MAX; 3], f64::MAX);
    for _ in 0..ROUNDS {
        for (read, least) in proved.iter_mut().enumerate() {
            let mut host = row.host()?;
            row.host[read](&mut host, 0..BEFORE);
            let (time, ()) = timed(|| row.host[read](&mut host, BEFORE..BEFORE + TIMED));
            *least = least.min(time / TIMED as f64);
            if (host.words, host.sum) != (compared.words, compared.sum) {
                return Err(format!(
                    "{name}: the loop that was timed ends with other words or answers"
                ));
            }
        }
        let mut runtime = row.runtime()?;
        (row.rust)(&mut runtime, 0..BEFORE);
        let (time, ()) = timed(|| (row.rust)(&mut runtime, BEFORE..BEFORE + TIMED));
        rust = rust.min(time / TIMED as f64);
        if Readings::of(&runtime, Options::ALL) != demanded {
            return Err(format!("{name}: the Rust that was timed ends otherwise"));
        }
    }
    Ok((proved, rust))
}

/// Prints a line for each row; fails if the two sides answer or end otherwise.
pub fn table() -> Result<(), String> {
    println!("by the C functions over {WORDS} lent words, {TIMED} laps after {BEFORE} others, best of {ROUNDS}; limit {LIMIT}");
    println!("both sides out of line; calls: without reading the items; all: with the items, leases and receipts read");
    println!(
        "{:<30} {:>8} {:>9} {:>6} {:>9} {:>6} {:>9} {:>6}",
        "", "Rust ns", "calls ns", "ratio", "items ns", "ratio", "all ns", "ratio"
    );
    for row in &ROWS {
        let (proved, rust) = measured(row)?;
        let [alone, items, all] = proved.map(|time| format!("{time:>9.1} {:>6.2}", time / rust));
        println!("{:<30} {rust:>8.1} {alone} {items} {all}", row.name);
    }
    Ok(())
}

//! The same operations over one lent runtime, and two more: the proved calls of `runtime`, in the
//! loops of crates/lent_speed, beside the Rust's. Each loop is timed as the compiler makes it, and with every
//! call kept out of line, as a host in another language meets it. The time of a loop is that of all
//! its laps less that of the first ones, so that the making of the runtime does not count.

use crate::lives::{acquire_cancel, each, order, submit_each, Prompt, NOW, OWNER, REQUEST};
use crate::timed;
use runtime_core::{profile, Capability, Config, LeaseRequest, Runtime};
use std::hint::black_box;
use std::ops::Range;

/// Laps before those that are timed: they fill the rings.
const BEFORE: u64 = 100;
/// With those before, less than the storm limit of the rejections.
const TIMED: u64 = 10_000;
const ROUNDS: usize = 60;

/// A loop over the proved code: so many laps, and the score of the runtime that they leave.
type Loop = unsafe extern "C" fn(laps: u64) -> u64;

extern "C" {
    fn lap_tick(laps: u64) -> u64;
    fn lap_leased_tick(laps: u64) -> u64;
    fn lap_acquire_cancel(laps: u64) -> u64;
    fn lap_submit(laps: u64) -> u64;
    fn lap_reject(laps: u64) -> u64;
    fn lap_expiry(laps: u64) -> u64;
    fn lap_full(laps: u64) -> u64;
    fn apart_tick(laps: u64) -> u64;
    fn apart_leased_tick(laps: u64) -> u64;
    fn apart_acquire_cancel(laps: u64) -> u64;
    fn apart_submit(laps: u64) -> u64;
    fn apart_reject(laps: u64) -> u64;
    fn apart_expiry(laps: u64) -> u64;
    fn apart_full(laps: u64) -> u64;
}

struct Row {
    name: &'static str,
    prepared: fn() -> Option<Runtime>,
    rust: fn(&mut Runtime, Range<u64>),
    lap: Loop,
    apart: Loop,
    /// The ratio to stay below.
    goal: f64,
}

const ROWS: [Row; 7] = [
    Row {
        name: "tick, idle",
        prepared: || started(32),
        rust: |r, n| each(r, n, |r, n| r.tick(n, &mut Prompt)),
        lap: lap_tick,
        apart: apart_tick,
        goal: 0.3,
    },
    Row {
        name: "tick, one lease",
        prepared: || leased(32),
        rust: |r, n| each(r, n, |r, _| r.tick(black_box(NOW), &mut Prompt)),
        lap: lap_leased_tick,
        apart: apart_leased_tick,
        goal: 0.3,
    },
    Row {
        name: "acquire and cancel",
        prepared: || started(32),
        rust: |r, n| each(r, n, acquire_cancel),
        lap: lap_acquire_cancel,
        apart: apart_acquire_cancel,
        goal: 0.9,
    },
    Row {
        name: "submit, accepted",
        prepared: || leased(32),
        rust: |r, n| submit_each(r, n, |n| n + 1),
        lap: lap_submit,
        apart: apart_submit,
        goal: 0.8,
    },
    Row {
        name: "submit, rejected, full ring",
        prepared: || leased(u16::MAX),
        rust: |r, n| submit_each(r, n, |_| 0),
        lap: lap_reject,
        apart: apart_reject,
        goal: 0.9,
    },
    Row {
        name: "acquire, expiry, update_state",
        prepared: || started(32),
        rust: |r, n| each(r, n, expiry),
        lap: lap_expiry,
        apart: apart_expiry,
        goal: 0.9,
    },
    Row {
        name: "submit, 16 records on 8 axes",
        prepared: filled,
        rust: |r, n| each(r, n, submit_both),
        lap: lap_full,
        apart: apart_full,
        goal: 1.0,
    },
];

fn made(records: &[Capability], invalid_limit: u16) -> Option<Runtime> {
    let config = Config {
        invalid_limit,
        ..Config::default()
    };
    Runtime::new(config, records, 1, 0, 0, &mut Prompt).ok()
}

fn started(invalid_limit: u16) -> Option<Runtime> {
    made(&profile::CAPABILITIES, invalid_limit)
}

fn leased(invalid_limit: u16) -> Option<Runtime> {
    let mut runtime = started(invalid_limit)?;
    runtime.acquire(REQUEST, NOW, &mut Prompt).ok()?;
    Some(runtime)
}

/// Two records on each of the eight axes, and a lease on the axis of the last record.
fn filled() -> Option<Runtime> {
    let record = |at: usize| Capability {
        id: at as u16 + 1,
        resource: ((at + 1) % 8) as u8,
        ..profile::CAPABILITIES[0]
    };
    let records: [Capability; 16] = std::array::from_fn(record);
    let mut runtime = made(&records, u16::MAX)?;
    let request = LeaseRequest {
        resource: 0,
        capabilities: 1 << 8 | 1 << 16,
        ..REQUEST
    };
    runtime.acquire(request, NOW, &mut Prompt).ok()?;
    Some(runtime)
}

/// A lease of 1 ms, whose end the next tick meets.
fn expiry(runtime: &mut Runtime, n: u64) {
    let request = LeaseRequest {
        duration_ms: 1,
        ..REQUEST
    };
    black_box(&runtime.acquire(black_box(request), 2 * n + 1, &mut Prompt)).ok();
    runtime.tick(2 * n + 2, &mut Prompt);
    runtime.update_state(0, 2 * n + 2, &mut Prompt);
}

/// An accepted order and a rejected one, on the last record.
fn submit_both(runtime: &mut Runtime, n: u64) {
    let epoch = runtime.epoch();
    for number in [n + 1, 0] {
        let mut action = order(number, epoch);
        action.capability = 16;
        let action = black_box(action);
        black_box(&runtime.submit(action, OWNER, NOW, NOW, &mut Prompt));
    }
}

/// The score of a runtime, as the loops have it.
fn score(runtime: &Runtime) -> u64 {
    let seen = runtime.snapshot();
    seen.epoch
        .wrapping_add(seen.next_receipt_id)
        .wrapping_add(seen.now)
}

/// The least times of a loop: of its first laps, and of all.
struct Least {
    begun: f64,
    whole: f64,
}

impl Least {
    const NONE: Self = Self {
        begun: f64::MAX,
        whole: f64::MAX,
    };

    /// One round; the score that it ends with.
    fn round(&mut self, laps: Loop) -> u64 {
        let (time, _) = timed(|| unsafe { laps(black_box(BEFORE)) });
        self.begun = self.begun.min(time);
        let (time, score) = timed(|| unsafe { laps(black_box(BEFORE + TIMED)) });
        self.whole = self.whole.min(time);
        score
    }

    fn lap(&self) -> f64 {
        (self.whole - self.begun) / TIMED as f64
    }
}

/// Nanoseconds of a lap, of one with the calls out of line, and of the operation in the Rust: the
/// best of all rounds.
fn measured(row: &Row) -> Result<[f64; 3], String> {
    let name = row.name;
    let (mut lap, mut apart, mut least_rust) = (Least::NONE, Least::NONE, f64::MAX);
    for _ in 0..ROUNDS {
        let scores = [lap.round(row.lap), apart.round(row.apart)];
        let mut runtime = (row.prepared)().ok_or(format!("{name}: the Rust does not start"))?;
        (row.rust)(&mut runtime, 0..BEFORE);
        let (time, ()) = timed(|| (row.rust)(&mut runtime, BEFORE..BEFORE + TIMED));
        least_rust = least_rust.min(time);
        let rust = score(&runtime);
        if scores != [rust; 2] {
            return Err(format!("{name}: the scores are {scores:?}, the Rust's {rust}"));
        }
    }
    Ok([lap.lap(), apart.lap(), least_rust / TIMED as f64])
}

/// Prints a line for each row; fails if the two sides end with other scores.
pub fn table() -> Result<(), String> {
    println!("over a lent runtime, {TIMED} laps after {BEFORE} others, best of {ROUNDS}");
    println!(
        "{:<30} {:>10} {:>10} {:>7} {:>6} {:>12} {:>7}",
        "", "proved ns", "Rust ns", "ratio", "goal", "out of line", "ratio"
    );
    for row in &ROWS {
        let [proved, apart, rust] = measured(row)?;
        println!(
            "{:<30} {:>10.1} {:>10.1} {:>7.2} {:>6.1} {:>12.1} {:>7.2}",
            row.name,
            proved,
            rust,
            proved / rust,
            row.goal,
            apart,
            apart / rust
        );
    }
    Ok(())
}

//! A push into the ring of receipts: the proved code beside the Rust's `record`, on a full ring.

use crate::timed;
use runtime_core::{
    profile, Config, Decision, Driver, DriverError, Observation, Reason, Receipt, Runtime,
    RECEIPT_CAPACITY,
};
use std::hint::black_box;

extern "C" {
    /// The number of the oldest receipt kept after these pushes, numbered from 0.
    fn receipts_speed_oldest(pushes: u64, kinds: u64) -> u64;
}

const PUSHES: u64 = 20_000_000;
const ROUNDS: usize = 5;
/// Which of 64 receipts in turn are rejections.
const MIXES: [(&str, u64); 3] = [
    ("without rejections", 0),
    ("rejections only", u64::MAX),
    ("every second one a rejection", 0xAAAA_AAAA_AAAA_AAAA),
];

/// A driver that does nothing: what is timed is the ring.
struct Idle;

impl Driver for Idle {
    fn observe(&mut self, _: u8) -> Result<Observation, DriverError> {
        Ok(Observation::default())
    }
    fn execute(&mut self, _: u16, _: [i32; 2]) -> Result<(), DriverError> {
        Ok(())
    }
    fn fallback(&mut self, _: u8, _: Reason) -> Result<(), DriverError> {
        Ok(())
    }
}

fn numbered(id: u64, kinds: u64) -> Receipt {
    let decision = if (kinds >> (id % 64)) & 1 == 1 {
        Decision::Rejected
    } else {
        Decision::Executed
    };
    Receipt {
        boot_id: 0,
        principal: 0,
        safety_flags: 0,
        receipt_id: id,
        action_id: 0,
        sequence: 0,
        capability: 0,
        resource: 0,
        lease_id: 0,
        decision,
        reason: Reason::Ok,
        epoch: 0,
        received_at: 0,
        admitted_at: 0,
        executed_at: 0,
        requested: [0; 2],
        observed: [0; 2],
        pre_state: 0,
        post_state: 0,
        original_receipt: 0,
        dispatched: false,
        observed_valid: false,
    }
}

/// The same pushes through the Rust's `record`, which numbers receipts itself.
#[inline(never)]
fn rust_oldest(runtime: &mut Runtime, pushes: u64, kinds: u64) -> u64 {
    runtime.set_next_receipt(0);
    for id in 0..pushes {
        runtime.push_receipt(numbered(id, kinds), &mut Idle);
    }
    runtime.receipt(0).map_or(0, |r| r.receipt_id)
}

fn started() -> Runtime {
    Runtime::new(
        Config::default(),
        &profile::CAPABILITIES,
        1,
        0,
        0,
        &mut Idle,
    )
    .unwrap_or_else(|_| panic!("the reference profile starts"))
}

/// Prints a line for each mix; fails if the two sides end with other rings.
pub fn table() -> Result<(), String> {
    assert_eq!(RECEIPT_CAPACITY, 64);
    println!("a push into a full ring of receipts, {PUSHES} pushes, best of {ROUNDS}");
    println!(
        "{:<30} {:>10} {:>10} {:>7}",
        "", "proved ns", "Rust ns", "ratio"
    );
    for (name, kinds) in MIXES {
        let (mut proved, mut rust) = (f64::MAX, f64::MAX);
        for _ in 0..ROUNDS {
            let kinds = black_box(kinds);
            let (p, a) = timed(|| unsafe { receipts_speed_oldest(PUSHES, kinds) });
            let mut runtime = started();
            let (r, b) = timed(|| rust_oldest(&mut runtime, PUSHES, kinds));
            if a != b {
                return Err(format!("{name}: the oldest receipt is {a}, the Rust's {b}"));
            }
            proved = proved.min(p / PUSHES as f64);
            rust = rust.min(r / PUSHES as f64);
        }
        println!(
            "{name:<30} {proved:>10.1} {rust:>10.1} {:>7.2}",
            proved / rust
        );
    }
    Ok(())
}

//! Short ways to run a life from its text and to look at its trace.
#![allow(dead_code)] // each test program uses some of it

use oracle::driver::Item;
use oracle::parse::parse;
use oracle::run::{run_life, Answer, CallTrace, ItemTrace, LifeTrace, Options, Readings};
use oracle::runtime_core::{Lease, Reason, Receipt};

/// The start of every case.
pub const START: &str = "profile\nstart boot_id 42 now 0 flags 0\n";

/// Case A.
pub const A: &str = "profile
start boot_id 42 now 0 flags 0
acquire owner 7 resource 0 capabilities 6 duration_ms 2000 limits any any now 0
";

/// The order of case C: its parameters, its epoch, then what follows on the line.
pub fn drive(parameters: &str, epoch: u64, rest: &str) -> String {
    order(1, 1, parameters, epoch, rest)
}

/// The same with another sequence and action id.
pub fn order(sequence: u64, action: u64, parameters: &str, epoch: u64, rest: &str) -> String {
    format!(
        "submit boot_id 42 requester 7 lease_id 1 action_id {action} sequence {sequence} \
         capability 1 based_on_epoch {epoch} execute_after 0 deadline 100 valid_for_ms 100 \
         parameters {parameters} principal 7 received_at 0 {rest}\n"
    )
}

/// Case C: A, then its order with good replies.
pub fn case_c() -> String {
    format!(
        "{A}replies ok ok see 300 -50 0\n{}",
        drive("300 -50", 2, "now 10")
    )
}

/// The trace of a single life.
pub fn run(text: &str) -> LifeTrace {
    let lives = parse(text).unwrap_or_else(|e| panic!("{e} in\n{text}"));
    assert_eq!(lives.len(), 1);
    run_life(&lives[0], Options::ALL)
}

/// The trace of the last call of a life.
pub fn last(text: &str) -> CallTrace {
    run(text).calls.pop().expect("a call")
}

/// The readings before the last call of a life.
pub fn before_last(trace: &LifeTrace) -> &Readings {
    match trace.calls.len() {
        0 => panic!("no call"),
        1 => trace.start.answer.as_ref().expect("a runtime"),
        n => &trace.calls[n - 2].after,
    }
}

/// Items in short: `observe 0`, `execute 1 300 -50`, `fallback 0 13`, `record 2 Fallback 13`.
pub fn items(call: &CallTrace) -> Vec<String> {
    call.items.iter().map(item).collect()
}

fn item(trace: &ItemTrace) -> String {
    match trace.item {
        Item::Observe { resource } => format!("observe {resource}"),
        Item::Execute {
            capability,
            parameters: [p0, p1],
        } => format!("execute {capability} {p0} {p1}"),
        Item::Fallback { resource, reason } => format!("fallback {resource} {}", reason as u16),
        Item::Record { receipt } => format!("record {}", receipt_text(&receipt)),
    }
}

/// Number, decision and reason.
pub fn receipt_text(r: &Receipt) -> String {
    format!("{} {:?} {}", r.receipt_id, r.decision, r.reason as u16)
}

/// The readings while item `index` is awaited.
pub fn awaited(call: &CallTrace, index: usize) -> &Readings {
    call.items[index].awaited.as_ref().expect("readings")
}

pub fn receipt_answer(call: &CallTrace) -> Receipt {
    match call.answer {
        Answer::Receipt(receipt) => receipt,
        answer => panic!("{answer:?}"),
    }
}

pub fn lease_answer(call: &CallTrace) -> Result<Lease, Reason> {
    match call.answer {
        Answer::Lease(answer) => answer,
        answer => panic!("{answer:?}"),
    }
}

/// The numbers of the kept receipts.
pub fn kept(readings: &Readings) -> Vec<u64> {
    readings.receipts.iter().map(|r| r.receipt_id).collect()
}

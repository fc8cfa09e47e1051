//! The cases of the scope, each with everything that it says of it.

mod common;

use common::*;
use oracle::run::{Answer, LifeTrace};
use oracle::runtime_core::{Bounds, Decision, Lease, Reason, RuntimeState};

const EXPECTED_LEASE: Lease = Lease {
    id: 1,
    owner: 7,
    resource: 0,
    capabilities: 6,
    expires_at: 2000,
    limits: [Bounds::ANY; 2],
    last_sequence: 0,
    last_renewal: 0,
};

fn acquire(capabilities: u64, duration_ms: u32) -> String {
    format!(
        "{START}acquire owner 7 resource 0 capabilities {capabilities} \
         duration_ms {duration_ms} limits any any now 0\n"
    )
}

/// The last call left all readings as they were.
fn unchanged(trace: &LifeTrace) {
    let call = trace.calls.last().expect("a call");
    assert_eq!(&call.after, before_last(trace));
    assert_eq!(items(call), [""; 0]);
}

#[test]
fn a_grants_a_lease() {
    let call = last(A);
    assert_eq!(lease_answer(&call), Ok(EXPECTED_LEASE));
    assert_eq!(items(&call), ["record 1 Control 24"]);
    assert_eq!(call.after.epoch, 2);
    assert_eq!(call.after.state, RuntimeState::Armed);
    assert_eq!(call.after.leases[0], Some(EXPECTED_LEASE));
    assert_eq!(kept(&call.after), [1]);
}

#[test]
fn a2_refuses_a_long_lease() {
    let trace = run(&acquire(6, 2001));
    assert_eq!(lease_answer(&trace.calls[0]), Err(Reason::Invalid));
    unchanged(&trace);
}

#[test]
fn a3_refuses_a_foreign_capability() {
    let trace = run(&acquire(14, 2000));
    assert_eq!(lease_answer(&trace.calls[0]), Err(Reason::Authority));
    unchanged(&trace);
}

#[test]
fn b_ticks_in_time() {
    let trace = run(&format!("{A}tick now 50\n"));
    let call = &trace.calls[1];
    assert_eq!(items(call), [""; 0]);
    let mut expected = before_last(&trace).clone();
    expected.snapshot.now = 50;
    if let Some(hidden) = &mut expected.hidden {
        hidden.last_tick = 50;
    }
    assert_eq!(call.after, expected);
}

#[test]
fn b2_trips_the_watchdog() {
    let call = last(&format!("{A}tick now 51\n"));
    let expected = [
        "fallback 0 13",
        "record 2 Fallback 13",
        "fallback 1 13",
        "record 3 Fallback 13",
    ];
    assert_eq!(items(&call), expected);
    assert_eq!(call.after.epoch, 4);
    assert_eq!(call.after.state, RuntimeState::Faulted);
    assert_eq!(call.after.leases, [None; 8]);
    assert_eq!(kept(&call.after), [1, 2, 3]);
}

#[test]
fn c_executes_an_order() {
    let call = last(&case_c());
    let expected = [
        "observe 0",
        "execute 1 300 -50",
        "observe 0",
        "record 2 Executed 0",
    ];
    assert_eq!(items(&call), expected);
    let receipt = receipt_answer(&call);
    assert_eq!(receipt_text(&receipt), "2 Executed 0");
    assert_eq!(receipt.observed, [300, -50]);
    assert_eq!(call.after.receipts[1], receipt);
    assert_eq!(call.after.epoch, 2);
    assert_eq!(call.after.state, RuntimeState::Armed);
}

#[test]
fn c2_refuses_it_again() {
    let again = drive("300 -50", 2, "now 10");
    let call = last(&format!("{}{again}", case_c()));
    let receipt = receipt_answer(&call);
    assert_eq!(receipt_text(&receipt), "3 Rejected 4");
    assert_eq!(receipt.original_receipt, 2);
    assert_eq!(items(&call), ["record 3 Rejected 4"]);
}

#[test]
fn c3_keeps_to_the_bounds() {
    let outside = last(&format!("{A}{}", drive("1001 -50", 2, "now 10")));
    assert_eq!(receipt_text(&receipt_answer(&outside)), "2 Rejected 1");
    let inside = last(&format!("{A}{}", drive("1000 -50", 2, "now 10")));
    assert_eq!(receipt_text(&receipt_answer(&inside)), "2 Executed 0");
}

#[test]
fn d_keeps_to_the_flags() {
    let flags = format!("{A}update_state flags 2 now 10\n");
    let call = last(&flags);
    assert_eq!(call.after.epoch, 3);
    assert_eq!(items(&call), [""; 0]);
    let call = last(&format!("{flags}{}", drive("300 -50", 3, "now 10")));
    assert_eq!(receipt_text(&receipt_answer(&call)), "2 Rejected 5");
}

#[test]
fn d2_falls_back_at_new_flags() {
    let call = last(&format!("{}update_state flags 2 now 20\n", case_c()));
    assert_eq!(items(&call), ["fallback 0 5", "record 3 Fallback 5"]);
    assert_eq!(call.after.epoch, 4);
    assert_eq!(call.after.state, RuntimeState::SafeIdle);
    assert_eq!(call.after.leases, [None; 8]);
}

#[test]
fn e_stops() {
    let stopped = format!("{A}emergency_stop now 5\n");
    let call = last(&stopped);
    assert_eq!(call.after.epoch, 4);
    assert_eq!(call.after.state, RuntimeState::Estopped);
    assert_eq!(kept(&call.after), [1, 2, 3]);
    let acquire = "acquire owner 7 resource 0 capabilities 6 duration_ms 2000 limits any any now 3";
    let call = last(&format!("{stopped}{acquire}\n"));
    assert_eq!(lease_answer(&call), Err(Reason::Estop));
    let expected = [
        "fallback 0 18",
        "record 4 Fallback 18",
        "fallback 1 18",
        "record 5 Fallback 18",
    ];
    assert_eq!(items(&call), expected);
}

#[test]
fn e2_recovers() {
    let text = format!(
        "{A}emergency_stop now 5
         update_state flags 0 now 6
         recover_local now 6\n"
    );
    let call = last(&text);
    assert_eq!(call.answer, Answer::Done(Ok(())));
    assert_eq!(call.after.epoch, 7);
    assert_eq!(call.after.state, RuntimeState::SafeIdle);
}

#[test]
fn f_trips_on_a_stale_state() {
    let ticks = format!("{A}tick now 50\ntick now 100\ntick now 150\ntick now 200\n");
    let trace = run(&format!("{ticks}tick now 249\n"));
    assert!(trace.calls[1..].iter().all(|call| call.items.is_empty()));
    assert_eq!(trace.calls[5].after.state, RuntimeState::Armed);
    for text in [
        format!("{ticks}tick now 250\n"),
        format!("{ticks}tick now 249\ntick now 250\n"),
    ] {
        let call = last(&text);
        let expected = [
            "fallback 0 22",
            "record 2 Fallback 22",
            "fallback 1 22",
            "record 3 Fallback 22",
        ];
        assert_eq!(items(&call), expected);
        assert_eq!(call.after.state, RuntimeState::Faulted);
    }
}

/// A, then orders up to a receipt number; the one with receipt 5 has a used sequence.
fn receipts_up_to(number: u64) -> String {
    (2..=number).fold(A.to_string(), |text, n| {
        let sequence = if n == 5 { 1 } else { n };
        text + &order(sequence, n, "0 0", 2, "now 10")
    })
}

#[test]
fn g_drops_the_only_rejection_first() {
    let full = last(&receipts_up_to(64));
    assert_eq!(kept(&full.after), (1..=64).collect::<Vec<_>>());
    let rejected = full.after.receipts.iter();
    let rejected: Vec<u64> = rejected
        .filter(|r| r.decision == Decision::Rejected)
        .map(|r| r.receipt_id)
        .collect();
    assert_eq!(rejected, [5]);
    let next = last(&receipts_up_to(65));
    let expected: Vec<u64> = (1..=65).filter(|n| *n != 5).collect();
    assert_eq!(kept(&next.after), expected);
    let after = last(&receipts_up_to(66));
    let expected: Vec<u64> = (2..=66).filter(|n| *n != 5).collect();
    assert_eq!(kept(&after.after), expected);
}

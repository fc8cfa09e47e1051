//! What the scope leaves open and the original decides.

mod common;

use common::*;
use oracle::run::Answer;
use oracle::runtime_core::{Decision, Reason, RuntimeState};

#[test]
fn an_equal_raise_number_does_nothing() {
    let trace = run(&format!("{A}poll_estop raised 0 now 5000\n"));
    let call = &trace.calls[1];
    assert_eq!(call.answer, Answer::Polled(false));
    assert_eq!(&call.after, before_last(&trace));
}

#[test]
fn another_raise_number_stops_once() {
    let trace = run(&format!(
        "{A}poll_estop raised 4294967295 now 5
         poll_estop raised 4294967295 now 5
         poll_estop raised 0 now 5\n"
    ));
    let answers: Vec<Answer> = trace.calls[1..].iter().map(|call| call.answer).collect();
    let expected = [true, false, true].map(Answer::Polled);
    assert_eq!(answers, expected);
    assert_eq!(trace.calls[1].after.state, RuntimeState::Estopped);
    assert_eq!(items(&trace.calls[3])[0], "fallback 0 11");
}

#[test]
fn a_stop_makes_no_tick() {
    let call = last(&format!("{A}emergency_stop now 5000\n"));
    let expected = [
        "fallback 0 11",
        "record 2 Fallback 11",
        "fallback 1 11",
        "record 3 Fallback 11",
    ];
    assert_eq!(items(&call), expected);
}

#[test]
fn a_stop_stamps_the_larger_time_and_a_clock_trip_the_older() {
    let stop = last(&format!("{A}tick now 30\nemergency_stop now 5\n"));
    assert_eq!(stop.after.snapshot.now, 30);
    assert_eq!(stop.after.receipts[1].executed_at, 30);
    let clock = last(&format!("{A}tick now 30\ntick now 29\n"));
    assert_eq!(clock.after.snapshot.now, 30);
    assert_eq!(clock.after.receipts[1].executed_at, 29);
}

#[test]
fn a_failed_fallback_keeps_its_reason_in_the_item_only() {
    let call = last(&format!("{A}replies fail\ntick now 51\n"));
    let expected = [
        "fallback 0 13",
        "record 2 Fallback 16",
        "fallback 1 13",
        "record 3 Fallback 13",
    ];
    assert_eq!(items(&call), expected);
    assert!(call.after.receipts[1].dispatched);
}

#[test]
fn grants_and_renewals_are_not_dispatched() {
    let call = last(&format!(
        "{A}renew owner 7 lease_id 1 renewal 1 duration_ms 100 now 20\n"
    ));
    assert!(call.after.receipts.iter().all(|r| !r.dispatched));
    assert_eq!(receipt_text(&call.after.receipts[1]), "2 Control 25");
    // A renewal may shorten the lease and leaves the epoch.
    assert_eq!(lease_answer(&call).map(|l| l.expires_at), Ok(120));
    assert_eq!(call.after.epoch, 2);
}

#[test]
fn an_orders_receipt_shows_what_the_tick_left() {
    // The tick trips, so that the order finds another epoch.
    let call = last(&format!("{A}{}", drive("0 0", 2, "now 60")));
    let receipt = receipt_answer(&call);
    assert_eq!(receipt_text(&receipt), "4 Rejected 12");
    assert_eq!(receipt.epoch, 4);
}

#[test]
fn an_unknown_capability_has_resource_255() {
    let text = drive("0 0", 2, "now 10")
        .replace("boot_id 42", "boot_id 43")
        .replace("capability 1", "capability 9");
    let receipt = receipt_answer(&last(&format!("{A}{text}")));
    assert_eq!(receipt_text(&receipt), "2 Rejected 23");
    assert_eq!(receipt.resource, 255);
}

/// The receipt of C's order at 10 with these replies.
fn failed(replies: &str) -> oracle::runtime_core::Receipt {
    let order = drive("300 -50", 2, "now 10");
    let receipt = receipt_answer(&last(&format!("{A}replies {replies}\n{order}")));
    assert_eq!(receipt.decision, Decision::Failed);
    receipt
}

#[test]
fn a_failed_order_shows_how_far_it_came() {
    let r = failed("fail");
    assert_eq!((r.reason, r.dispatched), (Reason::Driver, false));
    assert_eq!((r.pre_state, r.executed_at, r.post_state), (0, 0, 0));
    let r = failed("see 0 0 9 fail");
    assert_eq!((r.reason, r.dispatched), (Reason::Driver, true));
    assert_eq!((r.pre_state, r.executed_at), (9, 0));
    let r = failed("see 0 0 9 ok fail");
    assert_eq!((r.reason, r.executed_at), (Reason::Driver, 10));
    assert!(!r.observed_valid);
    let r = failed("see 0 0 9 ok see 300 -51 8");
    assert_eq!((r.reason, r.executed_at), (Reason::Verification, 10));
    assert_eq!((r.observed, r.post_state), ([300, -51], 8));
    assert!(r.observed_valid);
}

#[test]
fn a_failed_order_trips_with_its_reason() {
    let order = drive("300 -50", 2, "now 10");
    let call = last(&format!("{A}replies ok ok see 0 0 0\n{order}"));
    assert_eq!(items(&call)[4], "fallback 0 17");
    let call = last(&format!("{A}replies fail\n{order}"));
    assert_eq!(items(&call)[2], "fallback 0 16");
}

#[test]
fn a_duplicates_original_may_have_failed() {
    let order = drive("300 -50", 2, "now 10");
    let again = drive("300 -50", 8, "now 12")
        .replace("lease_id 1", "lease_id 2")
        .replace("sequence 1", "sequence 9");
    let text = format!(
        "{A}replies ok fail\n{order}update_state flags 0 now 11
         recover_local now 11
         acquire owner 7 resource 0 capabilities 6 duration_ms 2000 limits any any now 12
         {again}"
    );
    let receipt = receipt_answer(&last(&text));
    assert_eq!(receipt.reason, Reason::Duplicate);
    assert_eq!(receipt.original_receipt, 2);
}

#[test]
fn a_watchdog_trip_swallows_an_expiry() {
    let lease = "acquire owner 7 resource 0 capabilities 6 duration_ms 40 limits any any now 0";
    let call = last(&format!("{START}{lease}\ntick now 51\n"));
    assert_eq!(items(&call)[0], "fallback 0 13");
    assert_eq!(call.items.len(), 4);
}

#[test]
fn a_lease_expires_before_its_stream() {
    let lease = "acquire owner 7 resource 0 capabilities 6 duration_ms 40 limits any any now 0";
    let order = drive("0 0", 2, "now 10");
    let call = last(&format!("{START}{lease}\n{order}tick now 40\n"));
    assert_eq!(items(&call), ["fallback 0 14", "record 3 Fallback 14"]);
}

#[test]
fn a_streams_end_does_not_move_at_a_renewal() {
    let lease = "acquire owner 7 resource 0 capabilities 6 duration_ms 40 limits any any now 0";
    let order = drive("0 0", 2, "now 10");
    let renew = "renew owner 7 lease_id 1 renewal 1 duration_ms 2000 now 20\n";
    let life = format!("{START}{lease}\n{order}{renew}");
    assert_eq!(items(&last(&format!("{life}tick now 39\n"))), [""; 0]);
    let call = last(&format!("{life}tick now 40\n"));
    assert_eq!(items(&call), ["fallback 0 15", "record 4 Fallback 15"]);
}

#[test]
fn new_flags_are_taken_after_a_tick_that_trips() {
    let call = last(&format!("{A}update_state flags 2 now 51\n"));
    assert_eq!(items(&call)[0], "fallback 0 13");
    assert_eq!((call.after.flags, call.after.epoch), (2, 5));
    assert_eq!(call.after.snapshot.sensor_tick, 51);
}

#[test]
fn a_stop_bit_trips_again_while_estopped() {
    let call = last(&format!(
        "{A}emergency_stop now 5\nupdate_state flags 3 now 6\n"
    ));
    assert_eq!(items(&call)[0], "fallback 0 11");
    assert_eq!(call.items.len(), 4);
}

#[test]
fn a_recovery_while_armed_drops_the_leases() {
    let call = last(&format!("{A}recover_local now 10\n"));
    assert_eq!(call.answer, Answer::Done(Ok(())));
    assert_eq!(items(&call)[..2], ["fallback 0 26", "record 2 Fallback 26"]);
    assert_eq!(call.after.leases, [None; 8]);
}

#[test]
fn a_failed_recovery_turns_estopped_into_faulted() {
    let call = last(&format!(
        "{A}emergency_stop now 5
         update_state flags 0 now 6
         replies fail
         recover_local now 6\n"
    ));
    assert_eq!(call.answer, Answer::Done(Err(Reason::Driver)));
    assert_eq!(call.after.state, RuntimeState::Faulted);
    // All axes were tried.
    assert_eq!(items(&call)[2], "fallback 1 26");
}

#[test]
fn a_cancel_has_no_readiness_check() {
    let call = last(&format!(
        "{A}emergency_stop now 5\ncancel owner 7 lease_id 1 now 5\n"
    ));
    assert_eq!(call.answer, Answer::Done(Err(Reason::Authority)));
}

#[test]
fn a_stale_state_is_answered_in_safe_idle_only() {
    let lease = "acquire owner 7 resource 0 capabilities 6 duration_ms 2000 limits any any";
    let call = last(&format!("{START}{lease} now 250\n"));
    assert_eq!(lease_answer(&call), Err(Reason::StateStale));
    assert_eq!(items(&call), [""; 0]);
    let armed = last(&format!(
        "{A}tick now 50\ntick now 100\ntick now 150\ntick now 200\n{lease} now 250\n"
    ));
    assert_eq!(lease_answer(&armed), Err(Reason::Faulted));
}

#[test]
fn bounds_hold_for_both_parameters_whatever_the_count() {
    let stop = drive("0 1", 2, "now 10").replace("capability 1", "capability 2");
    let call = last(&format!("{A}{stop}"));
    assert_eq!(receipt_text(&receipt_answer(&call)), "2 Rejected 1");
}

#[test]
fn stale_comes_before_too_early() {
    let order = drive("0 0", 2, "now 10")
        .replace("execute_after 0", "execute_after 20")
        .replace("valid_for_ms 100", "valid_for_ms 10");
    let call = last(&format!("{A}{order}"));
    assert_eq!(receipt_text(&receipt_answer(&call)), "2 Rejected 2");
}

#[test]
fn rejections_in_safe_idle_count_towards_a_storm() {
    let config = "config watchdog_ms 50 state_ttl_ms 250 max_lease_ms 2000 \
                  max_valid_for_ms 1000 invalid_limit 2 estop_mask 1\n";
    let grant = "acquire owner 7 resource 0 capabilities 6 duration_ms 2000 limits any any now 0\n";
    let wrong = drive("1001 0", 2, "now 10");
    let first = drive("0 0", 1, "now 0");
    let text = format!("{config}{START}{first}{grant}");
    assert_eq!(last(&text).after.state, RuntimeState::Armed);
    let call = last(&format!("{text}{wrong}"));
    assert_eq!(items(&call)[1], "fallback 0 21");
}

#[test]
fn every_axis_is_tried_at_a_start() {
    let trace = run("profile\nreplies fail\nstart boot_id 42 now 0 flags 0\ntick now 1\n");
    assert_eq!(trace.start.items.len(), 2);
    assert_eq!(
        trace.start.answer.err(),
        Some(oracle::runtime_core::ConfigError::Driver)
    );
    assert!(trace.calls.is_empty());
    assert_eq!(trace.skipped.len(), 1);
}

//! The build with `counters`: counters near the top, and what no reading shows.
#![cfg(feature = "counters")]

mod common;

use common::*;
use oracle::run::{Answer, Readings};
use oracle::runtime_core::{Hidden, Reason, ReplayEntry, RuntimeState};

const TOP: u64 = u64::MAX;

fn hidden(readings: &Readings) -> &Hidden {
    readings.hidden.as_ref().expect("the build with counters")
}

/// The known fault: a counter at the top leaves the last tick behind while new flags still
/// move the stamp, so that `recover_local` subtracts a later stamp from now. Without overflow
/// checks the age wraps; the answer is 5 either way, by the age or by the counter.
#[test]
fn the_known_fault_answers_5() {
    let life = |config: &str, stamp: u64| {
        format!("{config}{START}set epoch {TOP}\nupdate_state flags 0 now {stamp}\nrecover_local now 0\n")
    };
    let call = last(&life("", 1));
    assert_eq!(call.answer, Answer::Done(Err(Reason::Precondition)));
    let (tick, stamp) = (call.after.snapshot.now, call.after.snapshot.sensor_tick);
    assert_eq!((tick, stamp), (0, 1));
    // Here the wrapped age is 1, below the limit of 250.
    let call = last(&life("", TOP));
    assert_eq!(call.answer, Answer::Done(Err(Reason::Precondition)));
    assert_eq!(call.after.snapshot.sensor_tick, TOP);
}

#[test]
fn each_counter_at_the_top_trips_the_next_tick() {
    for counter in ["epoch", "next_receipt", "next_lease"] {
        let call = last(&format!("{A}set {counter} {TOP}\ntick now 10\n"));
        assert_eq!(call.items.len(), 4, "{counter}");
        assert!(items(&call)[0].starts_with("fallback 0 12"), "{counter}");
        assert_eq!(call.after.state, RuntimeState::Faulted);
        // The tick is not stored.
        assert_eq!(call.after.snapshot.now, 0);
    }
}

#[test]
fn the_clock_is_looked_at_before_the_counters() {
    let call = last(&format!("{A}tick now 10\nset epoch {TOP}\ntick now 9\n"));
    assert_eq!(items(&call)[0], "fallback 0 18");
}

#[test]
fn numbers_stay_at_the_top() {
    let call = last(&format!(
        "{A}set epoch {}\nset next_receipt {}\ntick now 51\n",
        TOP - 1,
        TOP - 1
    ));
    assert_eq!(call.after.epoch, TOP);
    assert_eq!(call.after.snapshot.next_receipt_id, TOP);
    assert_eq!(kept(&call.after), [1, TOP - 1, TOP]);
}

#[test]
fn the_last_lease_number_is_one_below_the_top() {
    let set = format!("{START}set next_lease {}\n", TOP - 1);
    let grant = "acquire owner 7 resource 0 capabilities 6 duration_ms 9 limits any any now 0\n";
    let call = last(&format!("{set}{grant}"));
    assert_eq!(lease_answer(&call).map(|l| l.id), Ok(TOP - 1));
    assert_eq!(hidden(&call.after).next_lease, TOP);
    let call = last(&format!("{set}{grant}tick now 1\n"));
    assert_eq!(items(&call)[0], "fallback 0 12");
    let call = last(&format!("{set}{grant}{grant}"));
    assert_eq!(lease_answer(&call), Err(Reason::Faulted));
}

#[test]
fn an_order_can_have_the_top_receipt() {
    // The tick drops the lease of axis 1 with the last receipt below the top.
    let text = format!(
        "{A}acquire owner 8 resource 1 capabilities 24 duration_ms 10 limits any any now 0
         set next_receipt {}
         {}",
        TOP - 1,
        drive("0 0", 4, "now 10")
    );
    let call = last(&text);
    assert_eq!(items(&call)[1], format!("record {} Fallback 14", TOP - 1));
    assert_eq!(
        receipt_text(&receipt_answer(&call)),
        format!("{TOP} Executed 0")
    );
    assert_eq!(call.after.state, RuntimeState::Armed);
}

#[test]
fn a_recovery_is_refused_at_the_top() {
    for counter in ["epoch", "next_receipt", "next_lease"] {
        let call = last(&format!("{A}set {counter} {TOP}\nrecover_local now 10\n"));
        assert_eq!(
            call.answer,
            Answer::Done(Err(Reason::Precondition)),
            "{counter}"
        );
    }
}

#[test]
fn the_replay_entry_is_stored_before_the_first_observe_and_the_active_order_after() {
    let call = last(&case_c());
    let entry = ReplayEntry {
        owner: 7,
        action_id: 1,
        receipt: 2,
    };
    for index in 0..4 {
        assert_eq!(
            hidden(awaited(&call, index)).replay,
            [entry],
            "item {index}"
        );
    }
    for index in 0..3 {
        assert_eq!(
            hidden(awaited(&call, index)).active,
            [None; 8],
            "item {index}"
        );
    }
    let active = hidden(awaited(&call, 3)).active[0].expect("an active order");
    assert_eq!((active.capability.id, active.expires_at), (1, 100));
}

#[test]
fn the_rejection_count_is_raised_before_the_record_and_cleared_before_it() {
    let wrong = drive("1001 0", 2, "now 10");
    let call = last(&format!("{A}{wrong}"));
    assert_eq!(hidden(awaited(&call, 0)).invalid_count, 1);
    let right = drive("300 -50", 2, "now 10");
    let call = last(&format!("{A}{wrong}{right}"));
    assert_eq!(hidden(awaited(&call, 2)).invalid_count, 1);
    assert_eq!(hidden(awaited(&call, 3)).invalid_count, 0);
}

#[test]
fn the_rejection_count_outlives_trips_failures_and_failed_recoveries() {
    let wrong = drive("1001 0", 2, "now 10");
    let right = drive("300 -50", 2, "now 10");
    let failed = format!("{A}{wrong}replies fail\n{right}");
    assert_eq!(hidden(&last(&failed).after).invalid_count, 1);
    let recover = "update_state flags 0 now 11\nreplies fail\nrecover_local now 11\n";
    let call = last(&format!("{failed}{recover}"));
    assert_eq!(call.answer, Answer::Done(Err(Reason::Driver)));
    assert_eq!(hidden(&call.after).invalid_count, 1);
    let call = last(&format!("{failed}{recover}recover_local now 11\n"));
    assert_eq!(hidden(awaited(&call, 3)).invalid_count, 1);
    assert_eq!(hidden(&call.after).invalid_count, 0);
}

#[test]
fn the_rejection_count_trips_at_the_limit_from_where_it_is_set() {
    let wrong = drive("1001 0", 2, "now 10");
    let call = last(&format!("{A}set invalid_count 30\n{wrong}"));
    assert_eq!(hidden(&call.after).invalid_count, 31);
    assert_eq!(call.after.state, RuntimeState::Armed);
    let call = last(&format!("{A}set invalid_count 31\n{wrong}"));
    assert_eq!(hidden(&call.after).invalid_count, 32);
    assert_eq!(items(&call)[1], "fallback 0 21");
}

#[test]
fn the_rejection_count_stays_at_the_top_of_16_bits() {
    let wrong = drive("0 0", 1, "now 10");
    for count in [u16::MAX - 1, u16::MAX] {
        let call = last(&format!("{START}set invalid_count {count}\n{wrong}"));
        assert_eq!(hidden(&call.after).invalid_count, u16::MAX);
        assert_eq!(call.after.state, RuntimeState::SafeIdle);
    }
}

#[test]
fn a_raise_number_is_marked_seen_before_the_stop() {
    let call = last(&format!("{A}poll_estop raised 3 now 5\n"));
    assert_eq!(hidden(awaited(&call, 0)).estop_seen, 3);
}

#[test]
fn a_grants_record_sees_the_next_lease() {
    assert_eq!(hidden(awaited(&last(A), 0)).next_lease, 2);
}

#[test]
fn the_replay_ring_holds_the_last_32() {
    let orders = (1..=40).fold(A.to_string(), |text, n| {
        text + &order(n, n, "0 0", 2, "now 10")
    });
    let call = last(&orders);
    let replay = &hidden(&call.after).replay;
    let ids: Vec<u64> = replay.iter().map(|entry| entry.action_id).collect();
    assert_eq!(ids, (9..=40).rev().collect::<Vec<_>>());
    // One that has left the ring is admitted again.
    let again = last(&format!("{orders}{}", order(41, 8, "0 0", 2, "now 10")));
    assert_eq!(receipt_text(&receipt_answer(&again)), "42 Executed 0");
    let kept = last(&format!("{orders}{}", order(41, 9, "0 0", 2, "now 10")));
    assert_eq!(receipt_text(&receipt_answer(&kept)), "42 Rejected 4");
}

#[test]
fn a_control_order_clears_the_active_one() {
    let stop = order(2, 2, "0 0", 2, "now 20").replace("capability 1", "capability 2");
    let call = last(&format!("{}{stop}", case_c()));
    assert_eq!(receipt_text(&receipt_answer(&call)), "3 Executed 0");
    assert_eq!(
        hidden(awaited(&call, 2)).active[0].map(|a| a.capability.id),
        Some(1)
    );
    assert_eq!(hidden(awaited(&call, 3)).active, [None; 8]);
}

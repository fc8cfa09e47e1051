//! What is already done while an item is awaited, as readings show it.

mod common;

use common::*;
use oracle::run::Readings;
use oracle::runtime_core::{Reason, RuntimeState};

/// A with a second lease, of owner 8 on axis 1.
fn both_axes() -> String {
    format!("{A}acquire owner 8 resource 1 capabilities 24 duration_ms 1500 limits any any now 0\n")
}

fn leased(readings: &Readings) -> Vec<u8> {
    let leases = readings.leases.iter().flatten();
    leases.map(|lease| lease.resource).collect()
}

#[test]
fn a_fallback_has_cleared_its_lease_and_bumped_the_epoch() {
    let call = last(&format!("{}tick now 51\n", both_axes()));
    // Epoch 3 and receipts 1, 2 stand before the trip.
    let first = awaited(&call, 0);
    assert_eq!((first.epoch, leased(first)), (4, vec![1]));
    assert_eq!(first.state, RuntimeState::Faulted);
    assert_eq!(kept(first), [1, 2]);
    let record = awaited(&call, 1);
    assert_eq!((record.epoch, leased(record)), (4, vec![1]));
    assert_eq!(kept(record), [1, 2, 3]);
    assert_eq!(record.snapshot.next_receipt_id, 4);
    let second = awaited(&call, 2);
    assert_eq!((second.epoch, leased(second)), (5, vec![]));
    assert_eq!(kept(second), [1, 2, 3]);
}

#[test]
fn a_record_has_kept_the_receipt() {
    let call = last(&format!("{A}{}", drive("1001 0", 2, "now 10")));
    let record = awaited(&call, 0);
    assert_eq!(record.receipts.last(), Some(&receipt_answer(&call)));
    assert_eq!(record.snapshot.next_receipt_id, 3);
}

#[test]
fn a_grants_record_sees_the_lease() {
    let call = last(A);
    let record = awaited(&call, 0);
    assert_eq!(record.leases[0], lease_answer(&call).ok());
    assert_eq!((record.epoch, record.state), (2, RuntimeState::Armed));
}

#[test]
fn a_renewals_record_sees_the_new_expiry() {
    let call = last(&format!(
        "{A}renew owner 7 lease_id 1 renewal 3 duration_ms 100 now 20\n"
    ));
    let lease = awaited(&call, 0).leases[0].expect("a lease");
    assert_eq!((lease.expires_at, lease.last_renewal), (120, 3));
}

#[test]
fn the_sequence_is_stored_before_the_first_observe() {
    let call = last(&case_c());
    for index in 0..4 {
        let lease = awaited(&call, index).leases[0].expect("a lease");
        assert_eq!(lease.last_sequence, 1, "item {index}");
    }
    for index in 0..3 {
        assert_eq!(kept(awaited(&call, index)), [1], "item {index}");
    }
}

#[test]
fn a_storm_trips_after_the_rejections_record() {
    let text = format!(
        "config watchdog_ms 50 state_ttl_ms 250 max_lease_ms 2000 max_valid_for_ms 1000 \
         invalid_limit 1 estop_mask 1\n{A}{}",
        drive("1001 0", 2, "now 10")
    );
    let call = last(&text);
    let expected = [
        "record 2 Rejected 1",
        "fallback 0 21",
        "record 3 Fallback 21",
        "fallback 1 21",
        "record 4 Fallback 21",
    ];
    assert_eq!(items(&call), expected);
    let record = awaited(&call, 0);
    assert_eq!((record.state, record.epoch), (RuntimeState::Armed, 2));
    assert_eq!(leased(record), [0]);
    assert_eq!(awaited(&call, 1).state, RuntimeState::Faulted);
}

#[test]
fn a_failed_orders_record_comes_before_its_trip() {
    let call = last(&format!(
        "{A}replies ok fail\n{}",
        drive("300 -50", 2, "now 10")
    ));
    assert_eq!(items(&call)[2], "record 2 Failed 16");
    let record = awaited(&call, 2);
    assert_eq!((record.state, record.epoch), (RuntimeState::Armed, 2));
    assert_eq!(leased(record), [0]);
}

#[test]
fn a_watchdog_trip_sees_the_old_tick_and_others_the_new_one() {
    let watchdog = last(&format!("{A}tick now 10\ntick now 61\n"));
    let ticks: Vec<u64> = (0..4)
        .map(|index| awaited(&watchdog, index).snapshot.now)
        .collect();
    assert_eq!(ticks, [10; 4]);
    assert_eq!(watchdog.after.snapshot.now, 61);
    let stale = "tick now 50\ntick now 100\ntick now 150\ntick now 200\ntick now 250\n";
    let stale = last(&format!("{A}{stale}"));
    assert_eq!(awaited(&stale, 0).snapshot.now, 250);
    let clock = last(&format!("{A}tick now 10\ntick now 9\n"));
    assert_eq!(awaited(&clock, 0).snapshot.now, 10);
}

#[test]
fn an_expirys_fallback_sees_the_new_tick_and_the_old_state() {
    let lease = "acquire owner 7 resource 0 capabilities 6 duration_ms 40 limits any any now 0";
    let call = last(&format!("{START}{lease}\ntick now 40\n"));
    assert_eq!(items(&call), ["fallback 0 14", "record 2 Fallback 14"]);
    let fallback = awaited(&call, 0);
    assert_eq!(fallback.snapshot.now, 40);
    assert_eq!(fallback.state, RuntimeState::Armed);
    assert_eq!(call.after.state, RuntimeState::SafeIdle);
}

#[test]
fn a_recovery_changes_the_state_only_at_its_end() {
    let call = last(&format!(
        "{A}tick now 51\nupdate_state flags 0 now 52\nrecover_local now 52\n"
    ));
    assert_eq!(call.items.len(), 4);
    for index in 0..4 {
        assert_eq!(awaited(&call, index).state, RuntimeState::Faulted);
    }
    assert_eq!(call.after.state, RuntimeState::SafeIdle);
    let armed = last(&format!("{A}recover_local now 10\n"));
    assert_eq!(awaited(&armed, 3).state, RuntimeState::Armed);
}

#[test]
fn a_cancels_fallback_still_shows_armed() {
    let call = last(&format!("{A}cancel owner 7 lease_id 1 now 10\n"));
    let fallback = awaited(&call, 0);
    assert_eq!(fallback.state, RuntimeState::Armed);
    assert_eq!(leased(fallback), []);
    assert_eq!(call.after.state, RuntimeState::SafeIdle);
}

#[test]
fn new_flags_are_seen_during_their_fallbacks() {
    let call = last(&format!("{}update_state flags 2 now 20\n", case_c()));
    let fallback = awaited(&call, 0);
    assert_eq!((fallback.flags, fallback.epoch), (2, 4));
    assert_eq!(fallback.snapshot.sensor_tick, 20);
    assert_eq!(fallback.state, RuntimeState::Armed);
}

#[test]
fn a_stop_is_seen_during_its_fallbacks() {
    let call = last(&format!("{A}emergency_stop now 5\n"));
    let fallback = awaited(&call, 0);
    assert_eq!((fallback.flags, fallback.snapshot.now), (1, 5));
    assert_eq!(fallback.state, RuntimeState::Estopped);
    // The flags bumped nothing: one fallback, one epoch.
    assert_eq!(fallback.epoch, 3);
}

#[test]
fn reading_during_waits_changes_nothing() {
    let text = format!("{}replies fail\ntick now 90\n", case_c());
    let life = &oracle::parse::parse(&text).expect("a life")[0];
    let with = run(&text);
    let without = oracle::run::run_life(life, oracle::run::Options::default());
    for (with, without) in with.calls.iter().zip(&without.calls) {
        assert_eq!(with.answer, without.answer);
        assert_eq!(items(with), items(without));
        let mut after = with.after.clone();
        after.hidden = None;
        assert_eq!(after, without.after);
        assert!(without.items.iter().all(|item| item.awaited.is_none()));
    }
    let last = with.calls.last().expect("a call");
    assert_eq!(last.after.receipts[2].reason, Reason::Driver);
}

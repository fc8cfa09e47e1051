//! Values as terms: numbers, records, lists, and each kind of input and output.

use definitions::text::{call, capability, config, input, integer, lease, list, output, receipt};
use definitions::text::{setter, DEFAULT_CONFIG};
use definitions::turns::{Input, Output, Reading, Reply, Value};
use oracle::driver::Item;
use oracle::life::{config_fields, Call, Counter};
use oracle::run::Answer;
use oracle::runtime_core::profile::CAPABILITIES;
use oracle::runtime_core::{
    Bounds, Config, Decision, Lease, LeaseRequest, Observation, Reason, Receipt, RuntimeState,
};

#[test]
fn integers_of_both_signs() {
    assert_eq!(integer(0), "pos 0");
    assert_eq!(integer(300), "pos 300");
    assert_eq!(integer(i32::MAX), "pos 2147483647");
    assert_eq!(integer(-1), "negsuc 0");
    assert_eq!(integer(-50), "negsuc 49");
    assert_eq!(integer(i32::MIN), "negsuc 2147483647");
}

#[test]
fn lists() {
    assert_eq!(list([]), "[]");
    assert_eq!(list(["1".into(), "2".into()]), "1 ∷ 2 ∷ []");
}

const RECEIPT: Receipt = Receipt {
    boot_id: 42,
    principal: 7,
    safety_flags: u32::MAX,
    receipt_id: u64::MAX,
    action_id: 1,
    sequence: 2,
    capability: 65535,
    resource: 255,
    lease_id: 3,
    decision: Decision::Rejected,
    reason: Reason::Duplicate,
    epoch: 4,
    received_at: 5,
    admitted_at: 6,
    executed_at: 0,
    requested: [i32::MIN, i32::MAX],
    observed: [-1, 0],
    pre_state: 8,
    post_state: 9,
    original_receipt: 10,
    dispatched: true,
    observed_valid: false,
};

const RECEIPT_TERM: &str = "record { boot_id = 42; principal = 7; safety_flags = 4294967295; \
receipt_id = 18446744073709551615; action_id = 1; sequence = 2; capability = 65535; \
resource = 255; lease_id = 3; decision = Decision.Rejected; reason = Reason.Duplicate; \
epoch = 4; received_at = 5; admitted_at = 6; executed_at = 0; \
requested = negsuc 2147483647 ∷ pos 2147483647 ∷ []; observed = negsuc 0 ∷ pos 0 ∷ []; \
pre_state = 8; post_state = 9; original_receipt = 10; dispatched = true; \
observed_valid = false }";

#[test]
fn a_receipt_has_all_its_fields() {
    assert_eq!(receipt(&RECEIPT), RECEIPT_TERM);
    assert_eq!(RECEIPT_TERM.matches(" = ").count(), 22);
}

#[test]
fn records_inside_records() {
    let term = lease(&Lease {
        id: 1,
        owner: u64::MAX,
        resource: 0,
        capabilities: 6,
        expires_at: 2000,
        limits: [Bounds::ANY, Bounds::ZERO],
        last_sequence: 0,
        last_renewal: 0,
    });
    let limits = "limits = record { min = negsuc 2147483647; max = pos 2147483647 } \
                  ∷ record { min = pos 0; max = pos 0 } ∷ []";
    assert!(term.contains(limits), "{term}");
    assert!(term.contains("owner = 18446744073709551615;"), "{term}");
    let discrete = capability(&CAPABILITIES[2]);
    assert!(discrete.contains("class = Class.Discrete;"), "{discrete}");
    assert!(discrete.ends_with("verification = Verification.State 1 1 }"));
}

#[test]
fn the_default_configuration_has_a_name() {
    let mut other = Config::default();
    assert_eq!(config(config_fields(&other)), DEFAULT_CONFIG);
    other.estop_mask = u32::MAX;
    let term = config(config_fields(&other));
    assert!(term.starts_with("record { watchdog_ms = 50;"), "{term}");
    assert!(term.ends_with("estop_mask = 4294967295 }"), "{term}");
}

#[test]
fn inputs() {
    let request = LeaseRequest {
        owner: 7,
        resource: 0,
        capabilities: 6,
        duration_ms: 2000,
        limits: [Bounds::ZERO; 2],
    };
    let term = call(&Call::Acquire { request, now: 3 });
    assert!(term.starts_with("Acquire (record { owner = 7; resource = 0;"));
    assert!(term.ends_with("}) 3"), "{term}");
    let seen = Observation {
        parameters: [-1, 2],
        state: 3,
    };
    let replies = [
        (Reply::Observed(None), "Replies (Observed None)"),
        (
            Reply::Observed(Some(seen)),
            "Replies (Observed (Some (record { parameters = negsuc 0 ∷ pos 2 ∷ []; state = 3 })))",
        ),
        (Reply::Executed(false), "Replies (Executed false)"),
        (Reply::FellBack(true), "Replies (FellBack true)"),
        (Reply::Recorded, "Replies Recorded"),
    ];
    for (reply, term) in replies {
        assert_eq!(input(&Input::Replies(reply)), term);
    }
    let readings = [
        (Reading::ReceiptCount, "Reads ReadReceiptCount"),
        (Reading::Lease(8), "Reads (ReadLease 8)"),
    ];
    for (reading, term) in readings {
        assert_eq!(input(&Input::Reads(reading)), term);
    }
}

#[test]
fn outputs() {
    let fallback = Item::Fallback {
        resource: 1,
        reason: Reason::Startup,
    };
    let record = Item::Record { receipt: RECEIPT };
    let cases = [
        (Output::StartRefused(105), "StartRefused 105".to_string()),
        (
            Output::Reminds(113, fallback),
            "Reminds 113 (ItemFallback 1 Reason.Startup)".into(),
        ),
        (
            Output::Hands(record),
            format!("Hands (ItemRecord ({RECEIPT_TERM}))"),
        ),
        (Output::Answers(Answer::None), "Answers Returned".into()),
        (
            Output::Answers(Answer::Lease(Err(Reason::Busy))),
            "Answers (Refused Reason.Busy)".into(),
        ),
        (
            Output::Shows(Value::State(RuntimeState::Armed)),
            "Shows (OfState State.Armed)".into(),
        ),
        (
            Output::Shows(Value::Lease(None)),
            "Shows (OfLease None)".into(),
        ),
    ];
    for (value, term) in cases {
        assert_eq!(output(&value), term);
    }
}

#[test]
fn a_counter_is_set_by_a_function_on_books() {
    let term = setter((Counter::NextReceipt, u64::MAX));
    assert_eq!(term, "with_next_receipt 18446744073709551615");
    let term = setter((Counter::InvalidCount, 65535));
    assert_eq!(term, "with_invalid_count 65535");
}

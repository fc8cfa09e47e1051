//! Records to bytes and back.

mod common;

use common::a_word;
use oracle::life::{Call, Order, Renewal};
use oracle::prng::Prng;
use oracle::runtime_core::{
    Action, Bounds, Capability, Config, Decision, ExecutionClass, Lease, LeaseRequest, Reason,
    Receipt, RuntimeState, Snapshot, Verification,
};
use wire::format::layout::{InputKind, OutputKind};
use wire::format::word::{get_words, Word, CLASSES, DECISIONS, REASONS, STATES};
use wire::format::{show, Input, Opening, Output, OutputWords};
use wire::format::{InputWords, INPUT_BYTES, INPUT_WORDS, OUTPUT_BYTES, OUTPUT_WORDS};
use wire::malformed;

#[test]
fn sizes() {
    assert_eq!(INPUT_BYTES, INPUT_WORDS * 8);
    assert_eq!(OUTPUT_BYTES, OUTPUT_WORDS * 8);
}

/// A sound record of the kind.
fn an_input(kind: InputKind, rng: &mut Prng) -> InputWords {
    let mut words = [0; INPUT_WORDS];
    words[0] = kind.number();
    for (word, field) in words[1..].iter_mut().zip(kind.fields()) {
        *word = a_word(field.of, rng);
    }
    let filled = words;
    for (n, word) in words.iter_mut().enumerate() {
        *word *= u64::from(kind.reads(n, &filled));
    }
    words
}

#[test]
fn every_kind_of_input_goes_round() {
    let mut rng = Prng::new(1, 1);
    for kind in InputKind::ALL {
        for _ in 0..500 {
            let words = an_input(*kind, &mut rng);
            let input = Input::of(&words);
            assert_eq!(input.kind(), Some(*kind), "{}", show::input(&words));
            assert_eq!(input.words(), words);
            let mut bytes = Vec::new();
            input.encode(&mut bytes);
            let bytes: [u8; INPUT_BYTES] = bytes.try_into().expect("128 bytes");
            assert_eq!(Input::decode(&bytes), input);
            assert_eq!(get_words::<INPUT_WORDS>(&bytes), words);
        }
    }
}

/// A sound record of the kind.
fn an_output(kind: OutputKind, rng: &mut Prng) -> OutputWords {
    let mut words = [0; OUTPUT_WORDS];
    words[0] = kind.number();
    for (n, word) in words.iter_mut().enumerate().skip(1) {
        *word = kind.field(n).map_or(0, |field| a_word(field.of, rng));
    }
    if kind.shows_or_not() && words[1] == 0 {
        words[2..].fill(0);
    }
    if kind == OutputKind::Capability && words[12] == 0 {
        words[13..].fill(0);
    }
    words
}

#[test]
fn every_kind_of_output_goes_round() {
    let mut rng = Prng::new(2, 1);
    for kind in OutputKind::ALL {
        for _ in 0..500 {
            let words = an_output(*kind, &mut rng);
            let output = Output::of(&words).unwrap_or_else(|| panic!("{words:?}"));
            assert_eq!(output.kind(), *kind);
            assert_eq!(output.words(), words);
            let mut bytes = Vec::new();
            output.encode(&mut bytes);
            let bytes: [u8; OUTPUT_BYTES] = bytes.try_into().expect("208 bytes");
            assert_eq!(Output::decode(&bytes), Some(output));
        }
    }
}

#[test]
fn little_end_first() {
    let mut bytes = Vec::new();
    Input::Call(Call::Tick { now: 0x0102_0304 }).encode(&mut bytes);
    assert_eq!(
        bytes[..16],
        [16, 0, 0, 0, 0, 0, 0, 0, 4, 3, 2, 1, 0, 0, 0, 0]
    );
    assert!(bytes[16..].iter().all(|byte| *byte == 0));
}

#[test]
fn a_negative_number_has_32_zero_bits_above() {
    assert_eq!((-1i32).word(), 0xffff_ffff);
    assert_eq!(i32::MIN.word(), 0x8000_0000);
    assert_eq!(<i32 as Word>::of(0xffff_fffe), -2);
}

#[test]
fn enums_have_their_place_as_number() {
    for (n, class) in CLASSES.iter().enumerate() {
        assert_eq!(*class as usize, n);
    }
    for (n, state) in STATES.iter().enumerate() {
        assert_eq!(*state as usize, n);
    }
    for (n, decision) in DECISIONS.iter().enumerate() {
        assert_eq!(*decision as usize, n);
    }
    for (n, reason) in REASONS.iter().enumerate() {
        assert_eq!(*reason as usize, n);
    }
}

#[test]
fn malformed_records_stay_as_they_are() {
    for counters in [false, true] {
        for words in malformed::all(counters) {
            let input = Input::of(&words);
            let set = words[0] == InputKind::Set.number();
            assert!(set || input == Input::Malformed(words), "{words:?}");
            assert_eq!(input.words(), words);
        }
    }
}

#[test]
fn a_spoiled_record_is_malformed() {
    let mut rng = Prng::new(3, 1);
    let mut spoiled = 0;
    for kind in (0..800).flat_map(|_| malformed::kinds()) {
        let words = an_input(kind, &mut rng);
        if let Some(words) = malformed::spoiled(words, &mut rng) {
            assert_eq!(Input::of(&words), Input::Malformed(words));
            spoiled += 1;
        }
    }
    assert!(spoiled > 10_000);
    for _ in 0..1000 {
        let words = malformed::unknown(&mut rng);
        assert_eq!(Input::of(&words), Input::Malformed(words));
    }
}

#[test]
fn what_is_not_read_may_be_whatever_fits() {
    let capability = Input::Capability(a_capability(Verification::Parameters));
    let mut words = capability.words();
    (words[12], words[13]) = (5, u32::MAX.into());
    assert_eq!(Input::of(&words), capability);
    words[13] += 1;
    assert_eq!(Input::of(&words), Input::Malformed(words));
    let mut words = [0; INPUT_WORDS];
    (words[0], words[2], words[4]) = (32, 7, 9);
    let failed = Input::Reply(definitions::turns::Reply::Observed(None));
    assert_eq!(Input::of(&words), failed);
    words[4] = 1 << 32;
    assert_eq!(Input::of(&words), Input::Malformed(words));
}

#[test]
fn no_output_record() {
    let refused = Output::StartRefused(101).words();
    for (place, word) in [(0, 6), (1, 100), (1, 106), (2, 1), (25, 1)] {
        let mut words = refused;
        words[place] = word;
        assert_eq!(Output::of(&words), None);
        assert!(show::output(&words).starts_with("no output record, words"));
    }
    for number in [1, 110, 112, 114] {
        let mut words = [0; OUTPUT_WORDS];
        (words[0], words[1]) = (16, number);
        assert_eq!(Output::of(&words), None);
    }
    // Nothing is shown, and yet something.
    let mut words = Output::Lease(None).words();
    words[2] = 1;
    assert_eq!(Output::of(&words), None);
}

fn a_capability(verification: Verification) -> Capability {
    Capability {
        id: 1,
        resource: 2,
        class: ExecutionClass::Control,
        parameter_count: 3,
        bounds: [Bounds { min: -4, max: 5 }, Bounds { min: -6, max: 7 }],
        require_set: 8,
        require_clear: 9,
        verification,
    }
}

const CAPABILITY: &str = "capability id 1 resource 2 class 2 Control parameter_count 3 min0 -4 \
    max0 5 min1 -6 max1 7 require_set 8 require_clear 9 verification 1 mask 10 value 11";

fn shows_input(input: Input, text: &str) {
    assert_eq!(show::input(&input.words()), text);
}

#[test]
fn fields_of_a_capability() {
    let state = Verification::State {
        mask: 10,
        value: 11,
    };
    shows_input(Input::Capability(a_capability(state)), CAPABILITY);
}

#[test]
fn fields_of_a_start() {
    let opening = Opening {
        boot_id: 1,
        now: 2,
        flags: 3,
        config: Config {
            watchdog_ms: 4,
            state_ttl_ms: 5,
            max_lease_ms: 6,
            max_valid_for_ms: 7,
            invalid_limit: 8,
            estop_mask: 9,
        },
    };
    shows_input(
        Input::Start(opening),
        "start boot_id 1 now 2 flags 3 watchdog_ms 4 state_ttl_ms 5 max_lease_ms 6 \
         max_valid_for_ms 7 invalid_limit 8 estop_mask 9",
    );
}

#[test]
fn fields_of_leases_asked_for() {
    let request = LeaseRequest {
        owner: 2,
        resource: 3,
        capabilities: 4,
        duration_ms: 5,
        limits: [Bounds { min: -6, max: 7 }, Bounds { min: -8, max: 9 }],
    };
    shows_input(
        Input::Call(Call::Acquire { request, now: 1 }),
        "acquire now 1 owner 2 resource 3 capabilities 4 duration_ms 5 min0 -6 max0 7 \
         min1 -8 max1 9",
    );
    let renewal = Renewal {
        owner: 2,
        lease_id: 3,
        renewal: 4,
        duration_ms: 5,
        now: 1,
    };
    shows_input(
        Input::Call(Call::Renew(renewal)),
        "renew now 1 owner 2 lease_id 3 renewal 4 duration_ms 5",
    );
    let cancel = Call::Cancel {
        owner: 2,
        lease_id: 3,
        now: 1,
    };
    shows_input(Input::Call(cancel), "cancel now 1 owner 2 lease_id 3");
}

#[test]
fn fields_of_other_calls() {
    let update = Call::UpdateState { flags: 2, now: 1 };
    shows_input(Input::Call(update), "update_state now 1 flags 2");
    let poll = Call::PollEstop { raised: 2, now: 1 };
    shows_input(Input::Call(poll), "poll_estop now 1 raised 2");
    shows_input(Input::Call(Call::Submit(an_order())), ORDER);
}

const ORDER: &str = "submit now 1 principal 2 received_at 3 boot_id 4 requester 5 lease_id 6 \
    action_id 7 sequence 8 capability 9 based_on_epoch 10 execute_after 11 deadline 12 \
    valid_for_ms 13 parameter0 14 parameter1 -15";

fn an_order() -> Order {
    Order {
        action: Action {
            boot_id: 4,
            requester: 5,
            lease_id: 6,
            action_id: 7,
            sequence: 8,
            capability: 9,
            based_on_epoch: 10,
            execute_after: 11,
            deadline: 12,
            valid_for_ms: 13,
            parameters: [14, -15],
        },
        principal: 2,
        received_at: 3,
        now: 1,
    }
}

fn shows_output(output: Output, text: &str) {
    assert_eq!(show::output(&output.words()), text);
}

#[test]
fn fields_of_a_lease() {
    let lease = Lease {
        id: 1,
        owner: 2,
        resource: 3,
        capabilities: 4,
        expires_at: 5,
        limits: [Bounds { min: -6, max: 7 }, Bounds { min: -8, max: 9 }],
        last_sequence: 10,
        last_renewal: 11,
    };
    let text = "id 1 owner 2 resource 3 capabilities 4 expires_at 5 min0 -6 max0 7 min1 -8 \
        max1 9 last_sequence 10 last_renewal 11";
    shows_output(
        Output::Leased(lease),
        &format!("lease granted or renewed {text}"),
    );
    shows_output(
        Output::Lease(Some(lease)),
        &format!("lease number 1 {text}"),
    );
    shows_output(Output::Lease(None), "lease number 0");
}

#[test]
fn fields_of_a_snapshot() {
    let snapshot = Snapshot {
        boot_id: 1,
        epoch: 2,
        now: 3,
        sensor_tick: 4,
        flags: 5,
        state: RuntimeState::Estopped,
        active_leases: 7,
        retained_receipts: 8,
        next_receipt_id: 9,
    };
    shows_output(
        Output::Snapshot(snapshot),
        "snapshot boot_id 1 epoch 2 now 3 sensor_tick 4 flags 5 state 3 Estopped \
         active_leases 7 retained_receipts 8 next_receipt_id 9",
    );
}

#[test]
fn fields_of_other_outputs() {
    shows_output(
        Output::config(&Config::default()),
        "configuration watchdog_ms 50 state_ttl_ms 250 max_lease_ms 2000 \
         max_valid_for_ms 1000 invalid_limit 32 estop_mask 1",
    );
    let settled = format!("the order was settled {RECEIPT}");
    shows_output(Output::Settled(a_receipt()), &settled);
    let busy = "the call was refused number 19 Busy";
    shows_output(Output::Refused(Reason::Busy), busy);
}

const RECEIPT: &str = "boot_id 1 principal 2 safety_flags 3 receipt_id 4 action_id 5 sequence 6 \
    capability 7 resource 8 lease_id 9 decision 4 Failed reason 11 Estop epoch 12 received_at 13 \
    admitted_at 14 executed_at 15 requested0 16 requested1 -17 observed0 18 observed1 -19 \
    pre_state 20 post_state 21 original_receipt 22 dispatched 1 observed_valid 0";

fn a_receipt() -> Receipt {
    Receipt {
        boot_id: 1,
        principal: 2,
        safety_flags: 3,
        receipt_id: 4,
        action_id: 5,
        sequence: 6,
        capability: 7,
        resource: 8,
        lease_id: 9,
        decision: Decision::Failed,
        reason: Reason::Estop,
        epoch: 12,
        received_at: 13,
        admitted_at: 14,
        executed_at: 15,
        requested: [16, -17],
        observed: [18, -19],
        pre_state: 20,
        post_state: 21,
        original_receipt: 22,
        dispatched: true,
        observed_valid: false,
    }
}

#[test]
fn differences_by_name() {
    let demanded = Output::Settled(a_receipt()).words();
    let mut got = demanded;
    (got[11], got[13], got[25]) = (1, 13, 1);
    let rows = show::differences(&demanded, &got);
    let text: Vec<String> = rows.iter().map(|row| row.join(" | ")).collect();
    assert_eq!(
        text,
        [
            "word 11, decision | 4 Failed | 1 Rejected",
            "word 13, epoch | 12 | 13",
            "word 25, observed_valid | 0 | 1",
        ]
    );
    assert_eq!(show::numbers(&[0, 0, 3, 0]), "0 0 3");
    assert_eq!(show::numbers(&[0; 4]), "0");
}

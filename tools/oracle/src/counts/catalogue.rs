//! The rows that the counts have, also where nothing is counted, so that a hole shows.

use crate::checks;
use crate::show::{reason_text, refusal_text};
use runtime_core::{ConfigError, Decision, Reason, RuntimeState};

const STATES: [&str; 4] = ["SafeIdle", "Armed", "Faulted", "Estopped"];

pub const fn state_text(state: RuntimeState) -> &'static str {
    STATES[state as usize]
}

const DECISIONS: [&str; 5] = ["Executed", "Rejected", "Fallback", "Control", "Failed"];

pub const fn decision_text(decision: Decision) -> &'static str {
    DECISIONS[decision as usize]
}

pub const CALLS: [&str; 9] = [
    "tick",
    "update_state",
    "emergency_stop",
    "poll_estop",
    "recover_local",
    "acquire",
    "renew",
    "cancel",
    "submit",
];

pub const AXES: [&str; 8] = [
    "axis 0", "axis 1", "axis 2", "axis 3", "axis 4", "axis 5", "axis 6", "axis 7",
];

/// A time against each limit: one less, equal, one more.
pub const EDGES: [[&str; 3]; 7] = [
    ["watchdog - 1", "watchdog", "watchdog + 1"],
    ["state ttl - 1", "state ttl", "state ttl + 1"],
    ["lease expiry - 1", "lease expiry", "lease expiry + 1"],
    ["stream end - 1", "stream end", "stream end + 1"],
    ["deadline - 1", "deadline", "deadline + 1"],
    ["execute_after - 1", "execute_after", "execute_after + 1"],
    ["validity end - 1", "validity end", "validity end + 1"],
];

pub const CHECKS: [&str; 17] = [
    "check 1", "check 2", "check 3", "check 4", "check 5", "check 6", "check 7", "check 8",
    "check 9", "check 10", "check 11", "check 12", "check 13", "check 14", "check 15", "check 16",
    "check 17",
];

/// The places of a driver failure.
pub const PLACES: [&str; 4] = ["first observe", "execute", "second observe", "fallback"];

const fn texts<const N: usize>(reasons: [Reason; N]) -> [&'static str; N] {
    let mut texts = [""; N];
    let mut i = 0;
    while i < N {
        texts[i] = reason_text(reasons[i]);
        i += 1;
    }
    texts
}

const FALLBACKS: [&str; 13] = texts([
    Reason::Precondition,
    Reason::Estop,
    Reason::Faulted,
    Reason::Watchdog,
    Reason::LeaseExpired,
    Reason::StreamExpired,
    Reason::Driver,
    Reason::Verification,
    Reason::Clock,
    Reason::Canceled,
    Reason::InvalidStorm,
    Reason::StateStale,
    Reason::Recovered,
]);

const STARTUP: &str = reason_text(Reason::Startup);

const REJECTIONS: [&str; 15] = texts([
    Reason::Bound,
    Reason::Stale,
    Reason::Authority,
    Reason::Duplicate,
    Reason::Precondition,
    Reason::OldSequence,
    Reason::Epoch,
    Reason::UnknownCapability,
    Reason::TooEarly,
    Reason::Invalid,
    Reason::Estop,
    Reason::Faulted,
    Reason::Clock,
    Reason::StateStale,
    Reason::BootMismatch,
]);

const ACQUIRE_ANSWERS: [&str; 7] = texts([
    Reason::Authority,
    Reason::Invalid,
    Reason::Estop,
    Reason::Faulted,
    Reason::Clock,
    Reason::Busy,
    Reason::StateStale,
]);

const RENEW_ANSWERS: [&str; 7] = texts([
    Reason::Authority,
    Reason::OldSequence,
    Reason::Invalid,
    Reason::Estop,
    Reason::Faulted,
    Reason::Clock,
    Reason::StateStale,
]);

const REFUSALS: [&str; 5] = [
    refusal_text(ConfigError::InvalidBootId),
    refusal_text(ConfigError::InvalidConfig),
    refusal_text(ConfigError::InvalidCapability),
    refusal_text(ConfigError::DuplicateCapability),
    refusal_text(ConfigError::Driver),
];

/// Every row, group by group, in the order in which they are printed.
pub fn rows() -> Vec<(&'static str, &'static str)> {
    let mut rows = Vec::new();
    let mut group = |group, names: &[&'static str]| {
        rows.extend(names.iter().map(|name| (group, *name)));
    };
    group("call", &CALLS);
    group("call", &["set"]);
    starts(&mut group);
    items(&mut group);
    answers(&mut group);
    refusals(&mut group);
    times(&mut group);
    happenings(&mut group);
    rows
}

fn starts(group: &mut impl FnMut(&'static str, &[&'static str])) {
    group("start accepted", &["SafeIdle", "Estopped"]);
    group("start refused", &REFUSALS);
    group("start refused by", &checks::START.map(|(name, _)| name));
    group("startup fallback failed on", &AXES);
}

fn items(group: &mut impl FnMut(&'static str, &[&'static str])) {
    group("item", &["observe", "execute", "fallback", "record"]);
    group("item failed", &PLACES);
    group("item failed, two owners", &PLACES);
    group("verification", &["Parameters held", "State held"]);
    group("verification", &["Parameters failed", "State failed"]);
    for name in ["fallback item", "fallback item failed"] {
        group(name, &FALLBACKS);
        group(name, &[STARTUP]);
    }
    group("state after a call", &STATES);
    group("state during a wait", &STATES);
}

fn answers(group: &mut impl FnMut(&'static str, &[&'static str])) {
    group("answer of poll_estop", &["true", "false"]);
    group("answer of recover_local", &["ok"]);
    let recover = [Reason::Precondition, Reason::Estop, Reason::Driver];
    group("answer of recover_local", &texts(recover));
    group("answer of acquire", &["lease"]);
    group("answer of acquire", &ACQUIRE_ANSWERS);
    group("answer of renew", &["lease"]);
    group("answer of renew", &RENEW_ANSWERS);
    group("answer of cancel", &["ok"]);
    let cancel = [Reason::Authority, Reason::Driver];
    group("answer of cancel", &texts(cancel));
    group("decision", &DECISIONS);
    group("receipt Executed", &texts([Reason::Ok]));
    group("receipt Rejected", &REJECTIONS);
    group("receipt Fallback", &FALLBACKS);
    let control = [Reason::LeaseGranted, Reason::LeaseRenewed];
    group("receipt Control", &texts(control));
    let failed = [Reason::Driver, Reason::Verification];
    group("receipt Failed", &texts(failed));
}

fn refusals(group: &mut impl FnMut(&'static str, &[&'static str])) {
    let ready = checks::READY.map(|(name, _)| name);
    group("recover_local refused by", &checks::RECOVER.map(|(n, _)| n));
    group("acquire refused by", &ready);
    group("acquire refused by", &checks::ACQUIRE.map(|(name, _)| name));
    group("renew refused by", &ready);
    group("renew refused by", &checks::RENEW.map(|(name, _)| name));
    let submit = checks::SUBMIT.map(|(_, name, _)| name);
    group("submit refused by", &submit);
    group("submit refused alone by", &CHECKS);
}

fn times(group: &mut impl FnMut(&'static str, &[&'static str])) {
    for edge in EDGES {
        group("time at", &edge);
    }
    group("clock back in", &CALLS);
    group("time in the last second of u64 in", &CALLS);
}

fn happenings(group: &mut impl FnMut(&'static str, &[&'static str])) {
    group("new flags", &["equal", "changed", "stop", "stop again"]);
    group("raise number", &["equal", "above", "below"]);
    group("recovery from", &STATES);
    group("failed recovery from", &STATES);
    group("renewal", &["longer", "equal", "shorter"]);
    group("duplicate of", &["Executed", "Failed"]);
    let replay = ["entry dropped", "dropped id admitted again"];
    group("replay ring", &replay);
    let receipts = [
        "the oldest, a rejection",
        "a rejection, not the oldest",
        "the oldest, no rejection kept",
    ];
    group("receipt dropped", &receipts);
    group("life", &["two owners at once", "over 32 admitted"]);
    group("life", &["over 64 receipts", "calls skipped"]);
    group("replies", &["unused"]);
    group("at the top", &["epoch", "next_receipt", "next_lease"]);
    let order = ["Executed", "Rejected", "Failed"];
    group("order with receipt 2^64 - 1", &order);
    group("known fault", &["stamp later than now"]);
}

/// Why a row stays at 0 in this build; none if it can come up.
pub fn unreachable(group: &str, name: &str) -> Option<&'static str> {
    let clock = reason_text(Reason::Clock);
    let ready = "readiness never answers 18: the tick has tripped";
    match (group, name) {
        ("answer of acquire" | "answer of renew" | "receipt Rejected", n) if n == clock => {
            Some(ready)
        }
        ("acquire refused by" | "renew refused by", "now before last tick")
        | ("submit refused by", "now before last tick")
        | ("submit refused alone by", "check 3") => Some(ready),
        ("submit refused alone by", "check 1" | "check 2" | "check 4") => {
            Some("no lease stands then, so check 7 or 8 fails too")
        }
        _ if crate::HAS_COUNTERS => None,
        ("call", "set")
        | ("at the top", _)
        | ("order with receipt 2^64 - 1", _)
        | ("known fault", _)
        | ("recover_local refused by", "counter at the top") => Some("needs counters"),
        ("fallback item" | "fallback item failed" | "receipt Fallback", n)
            if n == reason_text(Reason::Faulted) =>
        {
            Some("needs counters")
        }
        _ => None,
    }
}

//! The rows that the counts have, also where nothing is counted.

use oracle::life::Counter;
use oracle::runtime_core::Reason;
use oracle::show::reason_text;

pub const STATES: [&str; 4] = ["SafeIdle", "Armed", "Faulted", "Estopped"];

const ITEMS: [&str; 4] = ["observe", "execute", "fallback", "record"];

const CALLS: [&str; 9] = [
    "tick",
    "update_state",
    "emergency_stop",
    "poll_estop",
    "recover_local",
    "acquire",
    "renew",
    "cancel",
    "submit",
];

const READINGS: [&str; 10] = [
    "state",
    "epoch",
    "boot_id",
    "flags",
    "receipt_count",
    "config",
    "snapshot",
    "lease",
    "capability",
    "receipt",
];

const FALLBACKS: [Reason; 13] = [
    Reason::Precondition,
    Reason::Estop,
    Reason::Faulted,
    Reason::Watchdog,
    Reason::LeaseExpired,
    Reason::StreamExpired,
    Reason::Driver,
    Reason::Verification,
    Reason::Clock,
    Reason::Canceled,
    Reason::InvalidStorm,
    Reason::StateStale,
    Reason::Recovered,
];

/// 18 is none of them: where the clock goes back the opening tick has tripped.
const REJECTIONS: [Reason; 14] = [
    Reason::Bound,
    Reason::Stale,
    Reason::Authority,
    Reason::Duplicate,
    Reason::Precondition,
    Reason::OldSequence,
    Reason::Epoch,
    Reason::UnknownCapability,
    Reason::TooEarly,
    Reason::Invalid,
    Reason::Estop,
    Reason::Faulted,
    Reason::StateStale,
    Reason::BootMismatch,
];

/// Of the calls that answer a reason alone.
const REFUSALS: [Reason; 9] = [
    Reason::Authority,
    Reason::Precondition,
    Reason::OldSequence,
    Reason::Invalid,
    Reason::Estop,
    Reason::Faulted,
    Reason::Driver,
    Reason::Busy,
    Reason::StateStale,
];

const FAILURES: [Reason; 2] = [Reason::Driver, Reason::Verification];

const GRANTS: [Reason; 2] = [Reason::LeaseGranted, Reason::LeaseRenewed];

type Rows = Vec<(&'static str, String)>;

/// Every row, group by group, in the order in which they are printed.
pub fn rows() -> Rows {
    let mut rows = Rows::new();
    inputs(&mut rows);
    starts_and_items(&mut rows);
    answers(&mut rows);
    out_of_place(&mut rows);
    readings(&mut rows);
    let counters = Counter::ALL.map(Counter::name);
    group(&mut rows, "lives that set", &counters);
    let lives = [
        "counters set",
        "over 32 admitted orders",
        "over 64 receipts",
        "cut while a reply is awaited",
    ];
    group(&mut rows, "lives with", &lives);
    group(&mut rows, "book compared", &["between calls", "none"]);
    group(&mut rows, "book compared", &ITEMS);
    rows
}

fn group(rows: &mut Rows, group: &'static str, names: &[&str]) {
    rows.extend(names.iter().map(|name| (group, name.to_string())));
}

fn reasons(rows: &mut Rows, group: &'static str, prefix: &str, reasons: &[Reason]) {
    let names = reasons
        .iter()
        .map(|r| format!("{prefix}{}", reason_text(*r)));
    rows.extend(names.map(|name| (group, name)));
}

fn inputs(rows: &mut Rows) {
    group(rows, "call", &CALLS);
    group(rows, "reply, good", &ITEMS);
    group(rows, "reply, failed", &ITEMS[..3]);
}

fn starts_and_items(rows: &mut Rows) {
    let starts = ["started", "101", "102", "103", "104", "105"];
    group(rows, "start", &starts);
    group(rows, "item", &ITEMS);
    reasons(rows, "fallback item", "", &FALLBACKS);
    reasons(rows, "fallback item", "", &[Reason::Startup]);
    let decisions = ["Executed", "Rejected", "Fallback", "Control", "Failed"];
    group(rows, "decision", &decisions);
    reasons(rows, "receipt", "Executed ", &[Reason::Ok]);
    reasons(rows, "receipt", "Rejected ", &REJECTIONS);
    reasons(rows, "receipt", "Fallback ", &FALLBACKS);
    reasons(rows, "receipt", "Control ", &GRANTS);
    reasons(rows, "receipt", "Failed ", &FAILURES);
}

fn answers(rows: &mut Rows) {
    let polled = ["returned", "polled true", "polled false"];
    group(rows, "answer", &polled);
    group(
        rows,
        "answer",
        &["succeeded", "lease", "refused", "receipt"],
    );
    reasons(rows, "answer refused", "", &REFUSALS);
    reasons(rows, "answer receipt", "", &[Reason::Ok]);
    reasons(rows, "answer receipt", "", &REJECTIONS);
    reasons(rows, "answer receipt", "", &FAILURES);
}

fn out_of_place(rows: &mut Rows) {
    for number in ["111", "113"] {
        let names = ITEMS.map(|item| format!("{number}, {item} awaited"));
        rows.extend(names.map(|name| ("out of place", name)));
    }
    group(rows, "out of place", &["112"]);
    group(rows, "111, call", &CALLS);
    group(rows, "112, reply", &ITEMS);
    for awaited in ITEMS {
        let others = ITEMS.iter().filter(|given| **given != awaited);
        let names = others.map(|given| format!("{given} for {awaited}"));
        rows.extend(names.map(|name| ("113, reply", name)));
    }
    group(rows, "no runtime, call", &CALLS);
}

fn readings(rows: &mut Rows) {
    for name in ["reading between calls", "reading in a wait"] {
        group(rows, name, &READINGS);
    }
    for name in ["reading in a start", "reading after a refused start"] {
        group(rows, name, &READINGS);
    }
    group(rows, "reading shows none", &READINGS[7..]);
    for name in ["state between calls", "state in a wait"] {
        group(rows, name, &STATES);
    }
}

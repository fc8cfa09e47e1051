//! Values as terms of antt.

use crate::turns::{Input, Output, Reading, Reply, Value};
use oracle::driver::Item;
use oracle::life::{config_fields, Call, Counter, Order, Renewal, Start};
use oracle::run::{Answer, Readings};
use oracle::runtime_core::profile::CAPABILITIES;
use oracle::runtime_core::{
    Action, ActiveOrder, Bounds, Capability, Config, ExecutionClass, Hidden, Lease, LeaseRequest,
    Observation, Receipt, ReplayEntry, Snapshot, Verification,
};

/// The names of what the shared file defines.
pub const DEFAULT_CONFIG: &str = "default_config";
pub const PROFILE: &str = "profile";

/// `pos n`, or `negsuc n` for -(n + 1).
pub fn integer(n: i32) -> String {
    if n < 0 {
        format!("negsuc {}", -(i64::from(n) + 1))
    } else {
        format!("pos {n}")
    }
}

pub fn list(terms: impl IntoIterator<Item = String>) -> String {
    let mut text = String::new();
    for term in terms {
        text.push_str(&term);
        text.push_str(" ∷ ");
    }
    text + "[]"
}

fn option<T>(value: Option<T>, term: impl Fn(&T) -> String) -> String {
    value.map_or("None".into(), |v| format!("Some ({})", term(&v)))
}

/// As an argument: a term of several words stands in parentheses.
fn argument(term: String) -> String {
    if term.contains(' ') {
        format!("({term})")
    } else {
        term
    }
}

pub fn record<const N: usize>(fields: [(&str, String); N]) -> String {
    let fields = fields.map(|(name, value)| format!("{name} = {value}"));
    format!("record {{ {} }}", fields.join("; "))
}

fn pair([first, second]: [i32; 2]) -> String {
    list([integer(first), integer(second)])
}

fn bounds(b: &Bounds) -> String {
    record([("min", integer(b.min)), ("max", integer(b.max))])
}

fn two_bounds(two: &[Bounds; 2]) -> String {
    list(two.iter().map(bounds))
}

/// The default by its name; the shared file spells it out.
pub fn config(fields: [(&'static str, u32); 6]) -> String {
    if fields == config_fields(&Config::default()) {
        return DEFAULT_CONFIG.into();
    }
    config_record(fields)
}

pub fn config_record(fields: [(&'static str, u32); 6]) -> String {
    record(fields.map(|(name, value)| (name, value.to_string())))
}

pub fn capability(c: &Capability) -> String {
    let verification = match c.verification {
        Verification::Parameters => "Verification.Parameters".into(),
        Verification::State { mask, value } => format!("Verification.State {mask} {value}"),
    };
    let class = match c.class {
        ExecutionClass::Stream => "Class.Stream",
        ExecutionClass::Discrete => "Class.Discrete",
        ExecutionClass::Control => "Class.Control",
    };
    record([
        ("id", c.id.to_string()),
        ("resource", c.resource.to_string()),
        ("class", class.into()),
        ("parameter_count", c.parameter_count.to_string()),
        ("bounds", two_bounds(&c.bounds)),
        ("require_set", c.require_set.to_string()),
        ("require_clear", c.require_clear.to_string()),
        ("verification", verification),
    ])
}

/// The profile by its name; the shared file spells it out.
fn table(capabilities: &[Capability]) -> String {
    if capabilities == CAPABILITIES {
        return PROFILE.into();
    }
    list(capabilities.iter().map(capability))
}

pub fn start(s: &Start) -> String {
    record([
        ("config", config(config_fields(&s.config))),
        ("capabilities", table(&s.capabilities)),
        ("boot_id", s.boot_id.to_string()),
        ("now", s.now.to_string()),
        ("flags", s.flags.to_string()),
    ])
}

pub fn receipt(r: &Receipt) -> String {
    record([
        ("boot_id", r.boot_id.to_string()),
        ("principal", r.principal.to_string()),
        ("safety_flags", r.safety_flags.to_string()),
        ("receipt_id", r.receipt_id.to_string()),
        ("action_id", r.action_id.to_string()),
        ("sequence", r.sequence.to_string()),
        ("capability", r.capability.to_string()),
        ("resource", r.resource.to_string()),
        ("lease_id", r.lease_id.to_string()),
        ("decision", format!("Decision.{:?}", r.decision)),
        ("reason", format!("Reason.{:?}", r.reason)),
        ("epoch", r.epoch.to_string()),
        ("received_at", r.received_at.to_string()),
        ("admitted_at", r.admitted_at.to_string()),
        ("executed_at", r.executed_at.to_string()),
        ("requested", pair(r.requested)),
        ("observed", pair(r.observed)),
        ("pre_state", r.pre_state.to_string()),
        ("post_state", r.post_state.to_string()),
        ("original_receipt", r.original_receipt.to_string()),
        ("dispatched", r.dispatched.to_string()),
        ("observed_valid", r.observed_valid.to_string()),
    ])
}

pub fn lease(l: &Lease) -> String {
    record([
        ("id", l.id.to_string()),
        ("owner", l.owner.to_string()),
        ("resource", l.resource.to_string()),
        ("capabilities", l.capabilities.to_string()),
        ("expires_at", l.expires_at.to_string()),
        ("limits", two_bounds(&l.limits)),
        ("last_sequence", l.last_sequence.to_string()),
        ("last_renewal", l.last_renewal.to_string()),
    ])
}

fn snapshot(s: &Snapshot) -> String {
    record([
        ("boot_id", s.boot_id.to_string()),
        ("epoch", s.epoch.to_string()),
        ("now", s.now.to_string()),
        ("sensor_tick", s.sensor_tick.to_string()),
        ("flags", s.flags.to_string()),
        ("state", format!("State.{:?}", s.state)),
        ("active_leases", s.active_leases.to_string()),
        ("retained_receipts", s.retained_receipts.to_string()),
        ("next_receipt_id", s.next_receipt_id.to_string()),
    ])
}

fn observation(o: &Observation) -> String {
    record([
        ("parameters", pair(o.parameters)),
        ("state", o.state.to_string()),
    ])
}

fn request(r: &LeaseRequest) -> String {
    record([
        ("owner", r.owner.to_string()),
        ("resource", r.resource.to_string()),
        ("capabilities", r.capabilities.to_string()),
        ("duration_ms", r.duration_ms.to_string()),
        ("limits", two_bounds(&r.limits)),
    ])
}

fn renewal(r: &Renewal) -> String {
    record([
        ("owner", r.owner.to_string()),
        ("lease_id", r.lease_id.to_string()),
        ("renewal", r.renewal.to_string()),
        ("duration_ms", r.duration_ms.to_string()),
        ("now", r.now.to_string()),
    ])
}

fn action(a: &Action) -> String {
    record([
        ("boot_id", a.boot_id.to_string()),
        ("requester", a.requester.to_string()),
        ("lease_id", a.lease_id.to_string()),
        ("action_id", a.action_id.to_string()),
        ("sequence", a.sequence.to_string()),
        ("capability", a.capability.to_string()),
        ("based_on_epoch", a.based_on_epoch.to_string()),
        ("execute_after", a.execute_after.to_string()),
        ("deadline", a.deadline.to_string()),
        ("valid_for_ms", a.valid_for_ms.to_string()),
        ("parameters", pair(a.parameters)),
    ])
}

fn order(o: &Order) -> String {
    record([
        ("action", action(&o.action)),
        ("principal", o.principal.to_string()),
        ("received_at", o.received_at.to_string()),
        ("now", o.now.to_string()),
    ])
}

/// # Panics
/// On `Call::Set`, which is no call of the protocol.
pub fn call(call: &Call) -> String {
    match call {
        Call::Tick { now } => format!("Tick {now}"),
        Call::UpdateState { flags, now } => format!("UpdateState {flags} {now}"),
        Call::EmergencyStop { now } => format!("EmergencyStop {now}"),
        Call::PollEstop { raised, now } => format!("PollEstop {raised} {now}"),
        Call::RecoverLocal { now } => format!("RecoverLocal {now}"),
        Call::Acquire { request: r, now } => format!("Acquire ({}) {now}", request(r)),
        Call::Renew(r) => format!("Renew ({})", renewal(r)),
        Call::Cancel {
            owner,
            lease_id,
            now,
        } => format!("Cancel {owner} {lease_id} {now}"),
        Call::Submit(o) => format!("Submit ({})", order(o)),
        Call::Set { .. } => unreachable!("a counter is set between two inputs"),
    }
}

fn reply(reply: &Reply) -> String {
    match reply {
        Reply::Observed(seen) => format!("Observed {}", argument(option(*seen, observation))),
        Reply::Executed(good) => format!("Executed {good}"),
        Reply::FellBack(good) => format!("FellBack {good}"),
        Reply::Recorded => "Recorded".into(),
    }
}

fn reading(reading: &Reading) -> String {
    match reading {
        Reading::Lease(axis) => format!("ReadLease {axis}"),
        Reading::Capability(index) => format!("ReadCapability {index}"),
        Reading::Receipt(index) => format!("ReadReceipt {index}"),
        plain => format!("Read{plain:?}"),
    }
}

pub fn input(input: &Input) -> String {
    match input {
        Input::Calls(made) => format!("Calls ({})", call(made)),
        Input::Replies(given) => format!("Replies {}", argument(reply(given))),
        Input::Reads(asked) => format!("Reads {}", argument(reading(asked))),
    }
}

fn item(item: &Item) -> String {
    match item {
        Item::Observe { resource } => format!("ItemObserve {resource}"),
        Item::Execute {
            capability,
            parameters,
        } => format!("ItemExecute {capability} ({})", pair(*parameters)),
        Item::Fallback { resource, reason } => format!("ItemFallback {resource} Reason.{reason:?}"),
        Item::Record { receipt: r } => format!("ItemRecord ({})", receipt(r)),
    }
}

fn answer(answer: &Answer) -> String {
    match answer {
        Answer::None => "Returned".into(),
        Answer::Polled(seen) => format!("Polled {seen}"),
        Answer::Done(Ok(())) => "Succeeded".into(),
        Answer::Lease(Ok(l)) => format!("Leased ({})", lease(l)),
        Answer::Done(Err(reason)) | Answer::Lease(Err(reason)) => {
            format!("Refused Reason.{reason:?}")
        }
        Answer::Receipt(r) => format!("Submitted ({})", receipt(r)),
    }
}

fn value(value: &Value) -> String {
    match value {
        Value::State(state) => format!("OfState State.{state:?}"),
        Value::Number(n) => format!("OfNumber {n}"),
        Value::Config(fields) => format!("OfConfig {}", argument(config(*fields))),
        Value::Snapshot(s) => format!("OfSnapshot ({})", snapshot(s)),
        Value::Lease(l) => format!("OfLease {}", argument(option(*l, lease))),
        Value::Capability(c) => format!("OfCapability {}", argument(option(*c, capability))),
        Value::Receipt(r) => format!("OfReceipt {}", argument(option(*r, receipt))),
    }
}

pub fn output(output: &Output) -> String {
    match output {
        Output::Started => "Started".into(),
        Output::StartRefused(number) => format!("StartRefused {number}"),
        Output::Hands(handed) => format!("Hands ({})", item(handed)),
        Output::Answers(given) => format!("Answers {}", argument(answer(given))),
        Output::Reminds(number, awaited) => format!("Reminds {number} ({})", item(awaited)),
        Output::Refuses(number) => format!("Refuses {number}"),
        Output::Shows(shown) => format!("Shows ({})", value(shown)),
        Output::NoRuntime => "NoRuntime".into(),
    }
}

/// The fields of the book, from all that the Rust holds.
pub fn book(r: &Readings, h: &Hidden) -> [(&'static str, String); 16] {
    [
        ("config", config(config_fields(&r.config))),
        ("boot_id", r.boot_id.to_string()),
        ("capabilities", table(&r.capabilities)),
        ("leases", list(r.leases.map(|l| option(l, lease)))),
        ("active", list(h.active.map(|a| option(a, active)))),
        ("replay", list(h.replay.iter().map(replay))),
        ("receipts", list(r.receipts.iter().map(receipt))),
        ("next_receipt", r.snapshot.next_receipt_id.to_string()),
        ("next_lease", h.next_lease.to_string()),
        ("epoch", r.epoch.to_string()),
        ("flags", r.flags.to_string()),
        ("state_at", h.state_at.to_string()),
        ("last_tick", h.last_tick.to_string()),
        ("state", format!("State.{:?}", r.state)),
        ("invalid_count", h.invalid_count.to_string()),
        ("estop_seen", h.estop_seen.to_string()),
    ]
}

fn active(a: &ActiveOrder) -> String {
    record([
        ("capability", capability(&a.capability)),
        ("expires_at", a.expires_at.to_string()),
    ])
}

fn replay(r: &ReplayEntry) -> String {
    record([
        ("owner", r.owner.to_string()),
        ("action_id", r.action_id.to_string()),
        ("receipt", r.receipt.to_string()),
    ])
}

/// The function on books that sets a counter.
pub fn setter((counter, value): (Counter, u64)) -> String {
    let name = match counter {
        Counter::Epoch => "with_epoch",
        Counter::NextReceipt => "with_next_receipt",
        Counter::NextLease => "with_next_lease",
        Counter::InvalidCount => "with_invalid_count",
    };
    format!("{name} {value}")
}

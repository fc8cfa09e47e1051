//! Which clause of the rules refuses a start or a call. Only the counts use it: an answer
//! shows the reason, several clauses share one, and a hole in a test shows by the clause.

use crate::life::{config_fields, Order, Renewal, Start};
use crate::run::Readings;
use runtime_core::{
    Bounds, Capability, ConfigError, Lease, LeaseRequest, Reason, RuntimeState, Verification,
    MAX_CAPABILITIES, MAX_RESOURCES,
};

/// The clauses of a start in order.
pub const START: [(&str, ConfigError); 20] = [
    ("boot number 0", ConfigError::InvalidBootId),
    ("list empty", ConfigError::InvalidConfig),
    ("list above 16", ConfigError::InvalidConfig),
    ("watchdog_ms 0", ConfigError::InvalidConfig),
    ("state_ttl_ms 0", ConfigError::InvalidConfig),
    ("max_lease_ms 0", ConfigError::InvalidConfig),
    ("max_valid_for_ms 0", ConfigError::InvalidConfig),
    ("invalid_limit 0", ConfigError::InvalidConfig),
    ("estop_mask 0", ConfigError::InvalidConfig),
    ("id 0", ConfigError::InvalidCapability),
    ("id above 63", ConfigError::InvalidCapability),
    ("axis above 7", ConfigError::InvalidCapability),
    ("parameter_count above 2", ConfigError::InvalidCapability),
    ("flag words share a bit", ConfigError::InvalidCapability),
    ("bounds 0 reversed", ConfigError::InvalidCapability),
    ("bounds 1 reversed", ConfigError::InvalidCapability),
    ("bounds past the count", ConfigError::InvalidCapability),
    ("state mask 0", ConfigError::InvalidCapability),
    ("state value outside mask", ConfigError::InvalidCapability),
    ("id used earlier", ConfigError::DuplicateCapability),
];

/// The first clause that refuses the start, before any driver call.
pub fn start(start: &Start) -> Option<(&'static str, ConfigError)> {
    let len = start.capabilities.len();
    let mut fails = vec![start.boot_id == 0, len == 0, len > MAX_CAPABILITIES];
    fails.extend(config_fields(&start.config).map(|(_, value)| value == 0));
    let mut records = start.capabilities.iter().enumerate();
    first(&START, &fails).or_else(|| records.find_map(|(i, c)| record(c, &start.capabilities[..i])))
}

fn record(c: &Capability, earlier: &[Capability]) -> Option<(&'static str, ConfigError)> {
    let (mask, value) = match c.verification {
        Verification::Parameters => (1, 0),
        Verification::State { mask, value } => (mask, value),
    };
    let mut past = c.bounds.iter().skip(c.parameter_count as usize);
    let past_count = past.any(|b| *b != Bounds::ZERO);
    let fails = [
        c.id == 0,
        c.id >= 64,
        c.resource as usize >= MAX_RESOURCES,
        c.parameter_count > 2,
        c.require_set & c.require_clear != 0,
        reversed(c.bounds[0]),
        reversed(c.bounds[1]),
        past_count,
        mask == 0,
        value & !mask != 0,
        earlier.iter().any(|e| e.id == c.id),
    ];
    first(&START[9..], &fails)
}

fn reversed(bounds: Bounds) -> bool {
    bounds.min > bounds.max
}

fn first<C: Copy>(clauses: &[C], fails: &[bool]) -> Option<C> {
    let failing = clauses.iter().zip(fails).find(|(_, fails)| **fails);
    failing.map(|(clause, _)| *clause)
}

/// The clauses of `acquire` after readiness, in order.
pub const ACQUIRE: [(&str, Reason); 11] = [
    ("axis above 7", Reason::Invalid),
    ("axis unused", Reason::Invalid),
    ("owner 0", Reason::Invalid),
    ("mask 0", Reason::Invalid),
    ("duration 0", Reason::Invalid),
    ("duration over the limit", Reason::Invalid),
    ("limit 0 reversed", Reason::Invalid),
    ("limit 1 reversed", Reason::Invalid),
    ("mask bit of no capability", Reason::Authority),
    ("axis taken", Reason::Busy),
    ("expiry past u64", Reason::Invalid),
];

/// `at` are the readings that the opening tick left.
pub fn acquire(r: &LeaseRequest, now: u64, at: &Readings) -> Option<(&'static str, Reason)> {
    let of_axis = at.capabilities.iter().filter(|c| c.resource == r.resource);
    let allowed = of_axis.fold(0, |mask, c| mask | 1u64 << c.id);
    let axis = r.resource as usize;
    let fails = [
        axis >= MAX_RESOURCES,
        allowed == 0,
        r.owner == 0,
        r.capabilities == 0,
        r.duration_ms == 0,
        r.duration_ms > at.config.max_lease_ms,
        reversed(r.limits[0]),
        reversed(r.limits[1]),
        r.capabilities & !allowed != 0,
        at.leases.get(axis).is_some_and(Option::is_some),
        now.checked_add(r.duration_ms as u64).is_none(),
    ];
    ready(at, now).or_else(|| first(&ACQUIRE, &fails))
}

/// The clauses of `renew` after readiness, in order.
pub const RENEW: [(&str, Reason); 6] = [
    ("duration 0", Reason::Invalid),
    ("duration over the limit", Reason::Invalid),
    ("no lease with this id", Reason::Authority),
    ("other owner", Reason::Authority),
    ("renewal not above the last", Reason::OldSequence),
    ("expiry past u64", Reason::Invalid),
];

/// `at` are the readings that the opening tick left.
pub fn renew(r: &Renewal, at: &Readings) -> Option<(&'static str, Reason)> {
    let lease = at.leases.iter().flatten().find(|l| l.id == r.lease_id);
    let fails = [
        r.duration_ms == 0,
        r.duration_ms > at.config.max_lease_ms,
        lease.is_none(),
        lease.is_some_and(|l| l.owner != r.owner),
        lease.is_some_and(|l| r.renewal <= l.last_renewal),
        r.now.checked_add(r.duration_ms as u64).is_none(),
    ];
    ready(at, r.now).or_else(|| first(&RENEW, &fails))
}

/// The clauses of `recover_local` before its fallbacks, in order.
pub const RECOVER: [(&str, Reason); 4] = [
    ("stop bit set", Reason::Estop),
    ("now before last tick", Reason::Precondition),
    ("counter at the top", Reason::Precondition),
    ("state stale", Reason::Precondition),
];

/// `at` are the readings that the opening tick left. `next_lease` shows in no reading, so the
/// caller tells whether a counter is at the top; there the age is not looked at.
pub fn recover(now: u64, exhausted: bool, at: &Readings) -> Option<(&'static str, Reason)> {
    let fails = [
        at.flags & at.config.estop_mask != 0,
        now < at.snapshot.now,
        exhausted,
        stale(at, now),
    ];
    first(&RECOVER, &fails)
}

/// Readiness, which `acquire`, `renew` and `submit` share.
pub const READY: [(&str, Reason); 4] = [
    ("Estopped", Reason::Estop),
    ("Faulted", Reason::Faulted),
    ("now before last tick", Reason::Clock),
    ("state stale", Reason::StateStale),
];

fn ready_fails(at: &Readings, now: u64) -> [bool; 4] {
    [
        at.state == RuntimeState::Estopped,
        at.state == RuntimeState::Faulted,
        now < at.snapshot.now,
        stale(at, now),
    ]
}

fn ready(at: &Readings, now: u64) -> Option<(&'static str, Reason)> {
    first(&READY, &ready_fails(at, now))
}

fn stale(at: &Readings, now: u64) -> bool {
    now.saturating_sub(at.snapshot.sensor_tick) >= at.config.state_ttl_ms as u64
}

/// A clause of one of the 17 admission checks.
pub type Clause = (usize, &'static str, Reason);

/// The clauses of `submit` in order, the number of their check first.
pub const SUBMIT: [Clause; 31] = [
    (1, "Estopped", Reason::Estop),
    (2, "Faulted", Reason::Faulted),
    (3, "now before last tick", Reason::Clock),
    (4, "state stale", Reason::StateStale),
    (5, "other boot", Reason::BootMismatch),
    (6, "principal 0", Reason::Authority),
    (6, "principal not the requester", Reason::Authority),
    (7, "no such capability", Reason::UnknownCapability),
    (8, "no lease", Reason::Authority),
    (8, "other lease id", Reason::Authority),
    (8, "other owner", Reason::Authority),
    (8, "capability bit clear", Reason::Authority),
    (9, "action id 0", Reason::Invalid),
    (9, "sequence 0", Reason::Invalid),
    (9, "received after now", Reason::Invalid),
    (9, "validity 0", Reason::Invalid),
    (9, "validity over the limit", Reason::Invalid),
    (9, "execute_after not before deadline", Reason::Invalid),
    (10, "action id in the replay ring", Reason::Duplicate),
    (11, "sequence not above the last", Reason::OldSequence),
    (12, "validity end past u64", Reason::Invalid),
    (13, "deadline reached", Reason::Stale),
    (13, "validity ended", Reason::Stale),
    (14, "before execute_after", Reason::TooEarly),
    (15, "other epoch", Reason::Epoch),
    (16, "parameter 0 outside capability", Reason::Bound),
    (16, "parameter 0 outside lease", Reason::Bound),
    (16, "parameter 1 outside capability", Reason::Bound),
    (16, "parameter 1 outside lease", Reason::Bound),
    (17, "required flag clear", Reason::Precondition),
    (17, "forbidden flag set", Reason::Precondition),
];

/// Every clause that the order fails, not only the first. `at` are the readings that the
/// opening tick left, `replay` the owner and action id of the last 32 admitted orders.
pub fn submit(order: &Order, at: &Readings, replay: &[(u64, u64)]) -> Vec<Clause> {
    let id = order.action.capability;
    let capability = at.capabilities.iter().find(|c| c.id == id);
    let lease = capability.and_then(|c| at.leases[c.resource as usize]);
    let mut fails = ready_fails(at, order.now).to_vec();
    fails.extend(authority_fails(order, at, capability, lease.as_ref()));
    fails.extend(time_fails(order, at, replay, lease.as_ref()));
    fails.extend(value_fails(order, at, capability, lease.as_ref()));
    let clauses = SUBMIT.iter().zip(fails);
    clauses.filter(|(_, f)| *f).map(|(c, _)| *c).collect()
}

fn authority_fails(
    order: &Order,
    at: &Readings,
    capability: Option<&Capability>,
    lease: Option<&Lease>,
) -> [bool; 8] {
    let (action, principal) = (&order.action, order.principal);
    let bit = capability.map_or(0, |c| 1u64 << c.id);
    [
        action.boot_id != at.boot_id,
        principal == 0,
        principal != action.requester,
        capability.is_none(),
        capability.is_some() && lease.is_none(),
        lease.is_some_and(|l| l.id != action.lease_id),
        lease.is_some_and(|l| l.owner != principal),
        lease.is_some_and(|l| l.capabilities & bit == 0),
    ]
}

fn time_fails(
    order: &Order,
    at: &Readings,
    replay: &[(u64, u64)],
    lease: Option<&Lease>,
) -> [bool; 12] {
    let (action, now) = (&order.action, order.now);
    let end = order.validity_end();
    [
        action.action_id == 0,
        action.sequence == 0,
        order.received_at > now,
        action.valid_for_ms == 0,
        action.valid_for_ms > at.config.max_valid_for_ms,
        action.execute_after >= action.deadline,
        replay.contains(&(order.principal, action.action_id)),
        lease.is_some_and(|l| action.sequence <= l.last_sequence),
        end.is_none(),
        now >= action.deadline,
        end.is_some_and(|end| now >= end),
        now < action.execute_after,
    ]
}

fn value_fails(
    order: &Order,
    at: &Readings,
    capability: Option<&Capability>,
    lease: Option<&Lease>,
) -> [bool; 7] {
    let [p0, p1] = order.action.parameters;
    let capability_misses = |n: usize, p| capability.is_some_and(|c| !c.bounds[n].contains(p));
    let lease_misses = |n: usize, p| lease.is_some_and(|l| !l.limits[n].contains(p));
    [
        order.action.based_on_epoch != at.epoch,
        capability_misses(0, p0),
        lease_misses(0, p0),
        capability_misses(1, p1),
        lease_misses(1, p1),
        capability.is_some_and(|c| at.flags & c.require_set != c.require_set),
        capability.is_some_and(|c| at.flags & c.require_clear != 0),
    ]
}

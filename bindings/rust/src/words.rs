//! Records as words (docs/WIRE.md): what is handed in without its kind, what is told with kind and number before it.

use crate::{refused, OUT_WORDS};
use crate::{Action, Bounds, Capability, Config, Decision, ExecutionClass, Item, Lease};
use crate::{LeaseRequest, Reason, Receipt, Refused, Snapshot, State, Verification};

/// The words of a capability.
pub const CAPABILITY: usize = 13;
/// The words of a receipt.
#[cfg(feature = "card")]
pub const RECEIPT: usize = 24;

type Out = [u64; OUT_WORDS];

// in --------------------------------------------------------------------------------------------------------------------

/// 32 bits, with zero bits above.
fn bits(value: i32) -> u64 {
    u64::from(value as u32)
}

pub fn start_words(config: &Config, boot_id: u64, now: u64, flags: u32) -> [u64; 9] {
    [
        boot_id,
        now,
        flags.into(),
        config.watchdog_ms.into(),
        config.state_ttl_ms.into(),
        config.max_lease_ms.into(),
        config.max_valid_for_ms.into(),
        config.invalid_limit.into(),
        config.estop_mask.into(),
    ]
}

pub fn capability_words(capability: &Capability) -> [u64; CAPABILITY] {
    let class = match capability.class {
        ExecutionClass::Stream => 0,
        ExecutionClass::Discrete => 1,
        ExecutionClass::Control => 2,
    };
    let (verification, mask, value) = match capability.verification {
        Verification::Parameters => (0, 0, 0),
        Verification::State { mask, value } => (1, mask, value),
    };
    let [first, second] = capability.bounds;
    [
        capability.id.into(),
        capability.resource.into(),
        class,
        capability.parameter_count.into(),
        bits(first.min),
        bits(first.max),
        bits(second.min),
        bits(second.max),
        capability.require_set.into(),
        capability.require_clear.into(),
        verification,
        mask.into(),
        value.into(),
    ]
}

pub fn request_words(request: &LeaseRequest, now: u64) -> [u64; 9] {
    let [first, second] = request.limits;
    [
        now,
        request.owner,
        request.resource.into(),
        request.capabilities,
        request.duration_ms.into(),
        bits(first.min),
        bits(first.max),
        bits(second.min),
        bits(second.max),
    ]
}

pub fn action_words(action: &Action, principal: u64, received_at: u64, now: u64) -> [u64; 15] {
    [
        now,
        principal,
        received_at,
        action.boot_id,
        action.requester,
        action.lease_id,
        action.action_id,
        action.sequence,
        action.capability.into(),
        action.based_on_epoch,
        action.execute_after,
        action.deadline,
        action.valid_for_ms.into(),
        bits(action.parameters[0]),
        bits(action.parameters[1]),
    ]
}

/// What `receipt` reads from word 2 on.
#[cfg(feature = "card")]
pub fn receipt_words(receipt: &Receipt) -> [u64; RECEIPT] {
    [
        receipt.boot_id,
        receipt.principal,
        receipt.safety_flags.into(),
        receipt.receipt_id,
        receipt.action_id,
        receipt.sequence,
        receipt.capability.into(),
        receipt.resource.into(),
        receipt.lease_id,
        receipt.decision.number().into(),
        receipt.reason.number().into(),
        receipt.epoch,
        receipt.received_at,
        receipt.admitted_at,
        receipt.executed_at,
        bits(receipt.requested[0]),
        bits(receipt.requested[1]),
        bits(receipt.observed[0]),
        bits(receipt.observed[1]),
        receipt.pre_state.into(),
        receipt.post_state.into(),
        receipt.original_receipt,
        receipt.dispatched.into(),
        receipt.observed_valid.into(),
    ]
}

// out -------------------------------------------------------------------------------------------------------------------

/// What a record of the expected kind says; a number that nothing stands for is `Unknown`.
pub fn told<T>(kind: u32, expected: u32, value: Option<T>) -> Result<T, Refused> {
    if kind != expected {
        return Err(refused(kind));
    }
    value.ok_or(Refused::Unknown(kind))
}

/// .. or that there is none.
pub fn found<T>(
    kind: u32,
    expected: u32,
    out: &Out,
    value: impl Fn(&Out) -> Option<T>,
) -> Result<Option<T>, Refused> {
    if kind == expected && out[1] == 0 {
        return Ok(None);
    }
    told(kind, expected, value(out)).map(Some)
}

fn pair(first: u64, second: u64) -> [i32; 2] {
    [first as i32, second as i32]
}

fn bounds(min: u64, max: u64) -> Bounds {
    let [min, max] = pair(min, max);
    Bounds { min, max }
}

pub fn item(kind: u32, out: &Out) -> Result<Item, Refused> {
    let axis = out[2] as u8;
    match kind {
        5 => Err(Refused::NoReplyAwaited),
        16 => Ok(Item::Observe { axis }),
        17 => Ok(Item::Execute {
            capability: out[2] as u16,
            parameters: pair(out[3], out[4]),
        }),
        18 => {
            let reason = told(kind, 18, Reason::of(out[3]))?;
            Ok(Item::Fallback { axis, reason })
        }
        19 => told(kind, 19, receipt(out)).map(Item::Record),
        _ => Err(refused(kind)),
    }
}

pub fn config(out: &Out) -> Config {
    Config {
        watchdog_ms: out[2] as u32,
        state_ttl_ms: out[3] as u32,
        max_lease_ms: out[4] as u32,
        max_valid_for_ms: out[5] as u32,
        invalid_limit: out[6] as u16,
        estop_mask: out[7] as u32,
    }
}

pub fn snapshot(out: &Out) -> Option<Snapshot> {
    Some(Snapshot {
        boot_id: out[2],
        epoch: out[3],
        now: out[4],
        sensor_tick: out[5],
        flags: out[6] as u32,
        state: State::of(out[7])?,
        active_leases: out[8] as u8,
        retained_receipts: out[9],
        next_receipt_id: out[10],
    })
}

pub fn lease(out: &Out) -> Option<Lease> {
    Some(Lease {
        id: out[2],
        owner: out[3],
        resource: out[4] as u8,
        capabilities: out[5],
        expires_at: out[6],
        limits: [bounds(out[7], out[8]), bounds(out[9], out[10])],
        last_sequence: out[11],
        last_renewal: out[12],
    })
}

pub fn capability(out: &Out) -> Option<Capability> {
    let class = match out[4] {
        0 => ExecutionClass::Stream,
        1 => ExecutionClass::Discrete,
        2 => ExecutionClass::Control,
        _ => return None,
    };
    let verification = match out[12] {
        0 => Verification::Parameters,
        1 => Verification::State {
            mask: out[13] as u32,
            value: out[14] as u32,
        },
        _ => return None,
    };
    Some(Capability {
        id: out[2] as u16,
        resource: out[3] as u8,
        class,
        parameter_count: out[5] as u8,
        bounds: [bounds(out[6], out[7]), bounds(out[8], out[9])],
        require_set: out[10] as u32,
        require_clear: out[11] as u32,
        verification,
    })
}

pub fn receipt(out: &Out) -> Option<Receipt> {
    Some(Receipt {
        boot_id: out[2],
        principal: out[3],
        safety_flags: out[4] as u32,
        receipt_id: out[5],
        action_id: out[6],
        sequence: out[7],
        capability: out[8] as u16,
        resource: out[9] as u8,
        lease_id: out[10],
        decision: Decision::of(out[11])?,
        reason: Reason::of(out[12])?,
        epoch: out[13],
        received_at: out[14],
        admitted_at: out[15],
        executed_at: out[16],
        requested: pair(out[17], out[18]),
        observed: pair(out[19], out[20]),
        pre_state: out[21] as u32,
        post_state: out[22] as u32,
        original_receipt: out[23],
        dispatched: out[24] != 0,
        observed_valid: out[25] != 0,
    })
}

//! The records of the Rust original (model.rs), with its names; and what an answer and an item say.

#[derive(Clone, Copy, Debug, PartialEq, Eq)]
pub struct Bounds {
    pub min: i32,
    pub max: i32,
}

impl Bounds {
    pub const ANY: Self = Self {
        min: i32::MIN,
        max: i32::MAX,
    };
    pub const ZERO: Self = Self { min: 0, max: 0 };
}

#[derive(Clone, Copy, Debug, PartialEq, Eq)]
pub enum ExecutionClass {
    Stream,
    Discrete,
    Control,
}

#[derive(Clone, Copy, Debug, PartialEq, Eq)]
pub enum Verification {
    /// The driver's observation must equal the requested parameters.
    Parameters,
    /// The driver's observation must have this masked state.
    State { mask: u32, value: u32 },
}

#[derive(Clone, Copy, Debug, PartialEq, Eq)]
pub struct Capability {
    pub id: u16,
    pub resource: u8,
    pub class: ExecutionClass,
    pub parameter_count: u8,
    pub bounds: [Bounds; 2],
    pub require_set: u32,
    pub require_clear: u32,
    pub verification: Verification,
}

#[derive(Clone, Copy, Debug, PartialEq, Eq)]
pub struct Config {
    pub watchdog_ms: u32,
    pub state_ttl_ms: u32,
    pub max_lease_ms: u32,
    pub max_valid_for_ms: u32,
    pub invalid_limit: u16,
    pub estop_mask: u32,
}

impl Default for Config {
    fn default() -> Self {
        Self {
            watchdog_ms: 50,
            state_ttl_ms: 250,
            max_lease_ms: 2000,
            max_valid_for_ms: 1000,
            invalid_limit: 32,
            estop_mask: 1,
        }
    }
}

#[derive(Clone, Copy, Debug, PartialEq, Eq)]
pub struct LeaseRequest {
    pub owner: u64,
    pub resource: u8,
    /// Bit N is capability N.
    pub capabilities: u64,
    pub duration_ms: u32,
    pub limits: [Bounds; 2],
}

#[derive(Clone, Copy, Debug, PartialEq, Eq)]
pub struct Action {
    pub boot_id: u64,
    pub requester: u64,
    pub lease_id: u64,
    pub action_id: u64,
    pub sequence: u64,
    pub capability: u16,
    pub based_on_epoch: u64,
    pub execute_after: u64,
    pub deadline: u64,
    pub valid_for_ms: u32,
    pub parameters: [i32; 2],
}

#[derive(Clone, Copy, Debug, PartialEq, Eq)]
pub struct Lease {
    pub id: u64,
    pub owner: u64,
    pub resource: u8,
    pub capabilities: u64,
    pub expires_at: u64,
    pub limits: [Bounds; 2],
    pub last_sequence: u64,
    pub last_renewal: u64,
}

#[derive(Clone, Copy, Debug, PartialEq, Eq)]
pub struct Receipt {
    pub boot_id: u64,
    pub principal: u64,
    pub safety_flags: u32,
    pub receipt_id: u64,
    pub action_id: u64,
    pub sequence: u64,
    pub capability: u16,
    pub resource: u8,
    pub lease_id: u64,
    pub decision: Decision,
    pub reason: Reason,
    pub epoch: u64,
    pub received_at: u64,
    pub admitted_at: u64,
    pub executed_at: u64,
    pub requested: [i32; 2],
    pub observed: [i32; 2],
    pub pre_state: u32,
    pub post_state: u32,
    /// Of a duplicate: the receipt that consumed its id; zero otherwise.
    pub original_receipt: u64,
    pub dispatched: bool,
    pub observed_valid: bool,
}

#[derive(Clone, Copy, Debug, PartialEq, Eq)]
pub struct Snapshot {
    pub boot_id: u64,
    pub epoch: u64,
    pub now: u64,
    pub sensor_tick: u64,
    pub flags: u32,
    pub state: State,
    pub active_leases: u8,
    pub retained_receipts: u64,
    pub next_receipt_id: u64,
}

#[derive(Clone, Copy, Debug, Default, PartialEq, Eq)]
pub struct Observation {
    pub parameters: [i32; 2],
    pub state: u32,
}

/// An enum of numbers, and the way back from a number.
macro_rules! numbered {
    ($(#[$about:meta])* $name:ident { $($case:ident = $number:literal,)* }) => {
        $(#[$about])*
        #[derive(Clone, Copy, Debug, PartialEq, Eq)]
        pub enum $name { $($case = $number,)* }

        impl $name {
            pub const fn number(self) -> u32 {
                self as u32
            }

            pub const fn of(number: u64) -> Option<Self> {
                match number {
                    $($number => Some(Self::$case),)*
                    _ => None,
                }
            }
        }
    };
}

numbered! {
    Reason {
        Ok = 0,
        Bound = 1,
        Stale = 2,
        Authority = 3,
        Duplicate = 4,
        Precondition = 5,
        OldSequence = 6,
        Epoch = 7,
        UnknownCapability = 8,
        TooEarly = 9,
        Invalid = 10,
        Estop = 11,
        Faulted = 12,
        Watchdog = 13,
        LeaseExpired = 14,
        StreamExpired = 15,
        Driver = 16,
        Verification = 17,
        Clock = 18,
        Busy = 19,
        Canceled = 20,
        InvalidStorm = 21,
        StateStale = 22,
        BootMismatch = 23,
        LeaseGranted = 24,
        LeaseRenewed = 25,
        Recovered = 26,
        Startup = 27,
    }
}

numbered! {
    Decision {
        Executed = 0,
        Rejected = 1,
        Fallback = 2,
        Control = 3,
        Failed = 4,
    }
}

numbered! {
    /// `RuntimeState` of the original.
    State {
        SafeIdle = 0,
        Armed = 1,
        Faulted = 2,
        Estopped = 3,
    }
}

/// A driver call: made once, and answered by the reply of its kind.
#[derive(Clone, Copy, Debug, PartialEq, Eq)]
pub enum Item {
    /// Answered by `observed`.
    Observe { axis: u8 },
    /// Answered by `executed`.
    Execute {
        capability: u16,
        parameters: [i32; 2],
    },
    /// Answered by `fell_back`.
    Fallback { axis: u8, reason: Reason },
    /// Answered by `recorded`.
    Record(Receipt),
}

/// What a start, a call or a reply came to.
#[derive(Clone, Copy, Debug, PartialEq, Eq)]
pub enum Answer {
    /// A driver call is due, and its reply.
    Item(Item),
    /// The start is over: there is a runtime.
    Started,
    /// `tick`, `update_state`, `emergency_stop`.
    Returned,
    /// `poll_estop`: no raise since the last one.
    Unraised,
    /// `poll_estop`: a raise; the stop was carried out.
    Raised,
    /// `cancel`, `recover_local`.
    Succeeded,
    /// `acquire`, `renew`.
    Leased(Lease),
    /// `submit`: the order's receipt, whatever was decided.
    Submitted(Receipt),
}

/// Why there is no answer. But for `Reason` and `StartupFailed` nothing was altered, if not otherwise said.
#[derive(Clone, Copy, Debug, PartialEq, Eq)]
pub enum Refused {
    /// `acquire`, `renew`, `cancel`, `recover_local`; the opening tick was made.
    Reason(Reason),
    /// There was no start, or it was refused, or for a reading: it is not over.
    NoRuntime,
    /// 101: boot number 0. With 101 to 105 there is no runtime, whatever there was.
    InvalidBootId,
    /// 102: no capability or more than 16, or a configured number is 0.
    InvalidConfig,
    /// 103
    InvalidCapability,
    /// 104
    DuplicateCapability,
    /// 105: a startup fallback failed; every used axis was tried.
    StartupFailed,
    /// 111: a call while a reply is awaited. `Stage::item` shows for which item; the driver is not called for it again.
    ReplyAwaited,
    /// 112: a reply, or a look for an item, while none is awaited.
    NoReplyAwaited,
    /// 113: a reply of another kind than awaited. As with 111.
    OtherAwaited,
    /// 64; `Stage` hands in none.
    Malformed,
    /// 65; `Stage` hands in no such slice.
    Short,
    /// 66; `Stage` has cleared its words.
    Other,
    /// A number that this crate has no name for: the archive is of another version.
    Unknown(u32),
}

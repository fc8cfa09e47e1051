//! Every number and every field of docs/WIRE.md, each in one place. `tests/layout.rs` holds this
//! file to the document.

use definitions::weave::{NO_REPLY_AWAITED, OTHER_REPLY_AWAITED, REPLY_AWAITED};

/// What a word holds.
#[derive(Clone, Copy, Debug, PartialEq, Eq)]
pub enum Type {
    Bool,
    U8,
    U16,
    U32,
    U64,
    I32,
    Class,
    Verification,
    State,
    Decision,
    Reason,
    /// Which counter is set.
    Counter,
    /// The number of a refused start.
    Refusal,
    /// The number of a reply while none is awaited.
    Unawaited,
    /// 0, or the number of a reminder.
    Reminder,
}

impl Type {
    /// The smallest and the largest word.
    pub const fn range(self) -> (u64, u64) {
        match self {
            Self::Bool | Self::Verification => (0, 1),
            Self::U8 => (0, u8::MAX as u64),
            Self::U16 => (0, u16::MAX as u64),
            Self::U32 | Self::I32 => (0, u32::MAX as u64),
            Self::U64 => (0, u64::MAX),
            Self::Class | Self::Counter => (0, 2),
            Self::State => (0, 3),
            Self::Decision => (0, 4),
            Self::Reason => (0, 27),
            Self::Refusal => (101, 105),
            Self::Unawaited => (NO_REPLY_AWAITED as u64, NO_REPLY_AWAITED as u64),
            Self::Reminder => (0, OTHER_REPLY_AWAITED as u64),
        }
    }

    pub const fn holds(self, word: u64) -> bool {
        let (least, most) = self.range();
        match self {
            Self::Reminder => word == 0 || word == REPLY_AWAITED as u64 || word == most,
            _ => least <= word && word <= most,
        }
    }
}

/// A word with its name.
#[derive(Clone, Copy, Debug, PartialEq, Eq)]
pub struct Field {
    pub name: &'static str,
    pub of: Type,
}

/// A list of fields.
macro_rules! fields {
    ($($name:ident $of:ident),* $(,)?) => {
        &[$(Field { name: stringify!($name), of: Type::$of }),*]
    };
}

type Fields = &'static [Field];

pub const CAPABILITY: Fields = fields![
    id U16, resource U8, class Class, parameter_count U8,
    min0 I32, max0 I32, min1 I32, max1 I32, require_set U32, require_clear U32,
    verification Verification, mask U32, value U32,
];

const CONFIG: Fields = fields![
    watchdog_ms U32, state_ttl_ms U32, max_lease_ms U32, max_valid_for_ms U32,
    invalid_limit U16, estop_mask U32,
];

const START: Fields = fields![
    boot_id U64, now U64, flags U32,
    watchdog_ms U32, state_ttl_ms U32, max_lease_ms U32, max_valid_for_ms U32,
    invalid_limit U16, estop_mask U32,
];

const ACQUIRE: Fields = fields![
    now U64, owner U64, resource U8, capabilities U64, duration_ms U32,
    min0 I32, max0 I32, min1 I32, max1 I32,
];

const RENEW: Fields = fields![now U64, owner U64, lease_id U64, renewal U64, duration_ms U32];

const CANCEL: Fields = fields![now U64, owner U64, lease_id U64];

const SUBMIT: Fields = fields![
    now U64, principal U64, received_at U64, boot_id U64, requester U64, lease_id U64,
    action_id U64, sequence U64, capability U16, based_on_epoch U64, execute_after U64,
    deadline U64, valid_for_ms U32, parameter0 I32, parameter1 I32,
];

const OBSERVED: Fields = fields![ok Bool, value0 I32, value1 I32, state U32];

pub const LEASE: Fields = fields![
    id U64, owner U64, resource U8, capabilities U64, expires_at U64,
    min0 I32, max0 I32, min1 I32, max1 I32, last_sequence U64, last_renewal U64,
];

pub const RECEIPT: Fields = fields![
    boot_id U64, principal U64, safety_flags U32, receipt_id U64, action_id U64, sequence U64,
    capability U16, resource U8, lease_id U64, decision Decision, reason Reason, epoch U64,
    received_at U64, admitted_at U64, executed_at U64, requested0 I32, requested1 I32,
    observed0 I32, observed1 I32, pre_state U32, post_state U32, original_receipt U64,
    dispatched Bool, observed_valid Bool,
];

const SNAPSHOT: Fields = fields![
    boot_id U64, epoch U64, now U64, sensor_tick U64, flags U32, state State,
    active_leases U8, retained_receipts U64, next_receipt_id U64,
];

const EXECUTE: Fields = fields![capability U16, parameter0 I32, parameter1 I32];

const NOW: Fields = fields![now U64];
const OK: Fields = fields![ok Bool];
const INDEX: Fields = fields![index U64];
const NONE: Fields = &[];

/// An enum of kinds with their numbers, and a table behind it.
macro_rules! kinds {
    (
        $(#[$doc:meta])* $kind:ident:
        $($variant:ident $number:literal $name:literal $fields:expr;)*
    ) => {
        $(#[$doc])*
        #[derive(Clone, Copy, Debug, PartialEq, Eq)]
        pub enum $kind { $($variant),* }

        impl $kind {
            pub const ALL: &'static [Self] = &[$(Self::$variant),*];

            /// Word 0.
            pub const fn number(self) -> u64 {
                match self { $(Self::$variant => $number),* }
            }

            pub const fn of(number: u64) -> Option<Self> {
                match number {
                    $($number => Some(Self::$variant),)*
                    _ => None,
                }
            }

            pub const fn name(self) -> &'static str {
                match self { $(Self::$variant => $name),* }
            }

            pub const fn fields(self) -> &'static [Field] {
                match self { $(Self::$variant => $fields),* }
            }
        }
    };
}

kinds! {
    /// The kinds of input records. `Set` is one of the test entry only.
    InputKind:
    Capability 1 "capability" CAPABILITY;
    Start 2 "start" START;
    Tick 16 "tick" NOW;
    UpdateState 17 "update_state" fields![now U64, flags U32];
    EmergencyStop 18 "emergency_stop" NOW;
    PollEstop 19 "poll_estop" fields![now U64, raised U32];
    RecoverLocal 20 "recover_local" NOW;
    Acquire 21 "acquire" ACQUIRE;
    Renew 22 "renew" RENEW;
    Cancel 23 "cancel" CANCEL;
    Submit 24 "submit" SUBMIT;
    Observed 32 "observed" OBSERVED;
    Executed 33 "executed" OK;
    FellBack 34 "fell_back" OK;
    Recorded 35 "recorded" NONE;
    State 48 "state" NONE;
    Epoch 49 "epoch" NONE;
    BootId 50 "boot_id" NONE;
    Flags 51 "flags" NONE;
    ReceiptCount 52 "receipt_count" NONE;
    Config 53 "config" NONE;
    Snapshot 54 "snapshot" NONE;
    Lease 55 "lease" fields![axis U8];
    CapabilityAt 56 "capability at" INDEX;
    ReceiptAt 57 "receipt at" INDEX;
    Set 96 "set" fields![counter Counter, value U64];
}

kinds! {
    /// The kinds of output records. `Set` is one of the test entry only.
    OutputKind:
    Listed 1 "the capability was listed" NONE;
    Started 2 "the start is over: there is a runtime" NONE;
    StartRefused 3 "the start was refused" NONE;
    NoRuntime 4 "there is no runtime to call or to read" NONE;
    Unawaited 5 "a reply while none is awaited" NONE;
    Observe 16 "item: observe" fields![axis U8];
    Execute 17 "item: execute" EXECUTE;
    Fallback 18 "item: fallback" fields![axis U8, reason Reason];
    Record 19 "item: record" RECEIPT;
    Returned 32 "the call returned" NONE;
    Polled 33 "the poll saw a raise, or not" NONE;
    Succeeded 34 "the call succeeded" NONE;
    Leased 35 "lease granted or renewed" LEASE;
    Refused 36 "the call was refused" NONE;
    Settled 37 "the order was settled" RECEIPT;
    State 48 "state" NONE;
    Number 49 "epoch, boot number, flags or number of receipts" NONE;
    Config 53 "configuration" CONFIG;
    Snapshot 54 "snapshot" SNAPSHOT;
    Lease 55 "lease" LEASE;
    Capability 56 "capability" CAPABILITY;
    Receipt 57 "receipt" RECEIPT;
    Malformed 64 "malformed record" NONE;
    Short 65 "short record" NONE;
    Set 96 "the counter was set" NONE;
}

impl InputKind {
    /// What a word but the first one holds; none if the kind does not use it.
    pub fn field(self, word: usize) -> Option<Field> {
        self.fields().get(word.checked_sub(1)?).copied()
    }
}

impl OutputKind {
    /// What a word but the first one holds; none if the kind does not use it.
    pub fn field(self, word: usize) -> Option<Field> {
        match word {
            1 => self.number_type().map(|of| Field { name: "number", of }),
            _ => self.fields().get(word.checked_sub(2)?).copied(),
        }
    }

    /// What word 1 holds.
    const fn number_type(self) -> Option<Type> {
        Some(match self {
            Self::StartRefused => Type::Refusal,
            Self::Unawaited => Type::Unawaited,
            Self::Observe | Self::Execute | Self::Fallback | Self::Record => Type::Reminder,
            Self::Polled | Self::Lease | Self::Capability | Self::Receipt => Type::Bool,
            Self::Refused => Type::Reason,
            Self::State => Type::State,
            Self::Number => Type::U64,
            _ => return None,
        })
    }

    /// Whether word 1 says if something is shown or nothing.
    pub const fn shows_or_not(self) -> bool {
        matches!(self, Self::Lease | Self::Capability | Self::Receipt)
    }
}

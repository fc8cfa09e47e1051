//! Input records.

use super::layout::InputKind;
use super::word::{get_words, put_words, Taker, Word};
use definitions::turns::{Reading, Reply};
use oracle::life::{config_fields, Call, Order, Renewal, Start};
use oracle::runtime_core::{
    Action, Bounds, Capability, Config, LeaseRequest, Observation, Verification,
};

pub const INPUT_WORDS: usize = 16;
pub const INPUT_BYTES: usize = 128;

/// The words of an input record.
pub type InputWords = [u64; INPUT_WORDS];

#[derive(Clone, Copy, Debug, PartialEq, Eq)]
pub enum Input {
    /// Lists a capability for the next start.
    Capability(Capability),
    Start(Opening),
    /// `Call::Set` is one of the test entry only.
    Call(Call),
    Reply(Reply),
    Read(Reading),
    /// None of these.
    Malformed(InputWords),
}

/// The arguments of a start but its capabilities.
#[derive(Clone, Copy, Debug)]
pub struct Opening {
    pub boot_id: u64,
    pub now: u64,
    pub flags: u32,
    pub config: Config,
}

impl Opening {
    pub const fn of(start: &Start) -> Self {
        Self {
            boot_id: start.boot_id,
            now: start.now,
            flags: start.flags,
            config: start.config,
        }
    }
}

impl PartialEq for Opening {
    fn eq(&self, other: &Self) -> bool {
        (self.boot_id, self.now, self.flags) == (other.boot_id, other.now, other.flags)
            && config_fields(&self.config) == config_fields(&other.config)
    }
}

impl Eq for Opening {}

impl Input {
    /// None if it is malformed.
    pub const fn kind(&self) -> Option<InputKind> {
        Some(match self {
            Self::Capability(_) => InputKind::Capability,
            Self::Start(_) => InputKind::Start,
            Self::Call(call) => call_kind(call),
            Self::Reply(reply) => reply_kind(reply),
            Self::Read(reading) => reading_kind(*reading),
            Self::Malformed(_) => return None,
        })
    }

    pub fn words(&self) -> InputWords {
        match self {
            Self::Capability(c) => record(InputKind::Capability, capability_words(c)),
            Self::Start(opening) => opening_words(opening),
            Self::Call(call) => call_words(call),
            Self::Reply(reply) => reply_words(reply),
            Self::Read(reading) => reading_words(*reading),
            Self::Malformed(words) => *words,
        }
    }

    /// Adds the record's 128 bytes.
    pub fn encode(&self, bytes: &mut Vec<u8>) {
        put_words(&self.words(), bytes);
    }

    pub fn decode(bytes: &[u8; INPUT_BYTES]) -> Self {
        Self::of(&get_words(bytes))
    }

    pub fn of(words: &InputWords) -> Self {
        let kind = InputKind::of(words[0]).filter(|kind| kind.fits(words));
        kind.map_or(Self::Malformed(*words), |kind| sound(kind, words))
    }
}

const fn call_kind(call: &Call) -> InputKind {
    match call {
        Call::Tick { .. } => InputKind::Tick,
        Call::UpdateState { .. } => InputKind::UpdateState,
        Call::EmergencyStop { .. } => InputKind::EmergencyStop,
        Call::PollEstop { .. } => InputKind::PollEstop,
        Call::RecoverLocal { .. } => InputKind::RecoverLocal,
        Call::Acquire { .. } => InputKind::Acquire,
        Call::Renew(_) => InputKind::Renew,
        Call::Cancel { .. } => InputKind::Cancel,
        Call::Submit(_) => InputKind::Submit,
        Call::Set { .. } => InputKind::Set,
    }
}

const fn reply_kind(reply: &Reply) -> InputKind {
    match reply {
        Reply::Observed(_) => InputKind::Observed,
        Reply::Executed(_) => InputKind::Executed,
        Reply::FellBack(_) => InputKind::FellBack,
        Reply::Recorded => InputKind::Recorded,
    }
}

const fn reading_kind(reading: Reading) -> InputKind {
    match reading {
        Reading::State => InputKind::State,
        Reading::Epoch => InputKind::Epoch,
        Reading::BootId => InputKind::BootId,
        Reading::Flags => InputKind::Flags,
        Reading::ReceiptCount => InputKind::ReceiptCount,
        Reading::Config => InputKind::Config,
        Reading::Snapshot => InputKind::Snapshot,
        Reading::Lease(_) => InputKind::Lease,
        Reading::Capability(_) => InputKind::CapabilityAt,
        Reading::Receipt(_) => InputKind::ReceiptAt,
    }
}

impl InputKind {
    /// Whether each word is one that its field can hold.
    pub fn fits(self, words: &InputWords) -> bool {
        (1..INPUT_WORDS).all(|n| match self.field(n) {
            Some(field) => field.of.holds(words[n]),
            None => words[n] == 0,
        })
    }

    /// False for what the document says is not read: the mask and the value beside
    /// verification 0, and an observation beside `ok` 0. It may be whatever the field can hold.
    pub const fn reads(self, word: usize, words: &InputWords) -> bool {
        match self {
            Self::Capability => word < 12 || words[11] != 0,
            Self::Observed => word < 2 || words[1] != 0,
            _ => true,
        }
    }
}

fn record<const N: usize>(kind: InputKind, fields: [u64; N]) -> InputWords {
    let mut words = [0; INPUT_WORDS];
    words[0] = kind.number();
    words[1..=N].copy_from_slice(&fields);
    words
}

/// Words 1 to 13 of a capability record.
pub(super) fn capability_words(c: &Capability) -> [u64; 13] {
    let [min0, max0, min1, max1] = bounds_words(&c.bounds);
    let (verification, mask, value) = match c.verification {
        Verification::Parameters => (0, 0, 0),
        Verification::State { mask, value } => (1, mask.word(), value.word()),
    };
    [
        c.id.word(),
        c.resource.word(),
        c.class.word(),
        c.parameter_count.word(),
        min0,
        max0,
        min1,
        max1,
        c.require_set.word(),
        c.require_clear.word(),
        verification,
        mask,
        value,
    ]
}

pub(super) fn bounds_words(bounds: &[Bounds; 2]) -> [u64; 4] {
    let [first, second] = bounds;
    [first.min, first.max, second.min, second.max].map(Word::word)
}

fn opening_words(o: &Opening) -> InputWords {
    let [a, b, c, d, e, f] = config_fields(&o.config).map(|(_, value)| value.word());
    let fields = [o.boot_id, o.now, o.flags.word(), a, b, c, d, e, f];
    record(InputKind::Start, fields)
}

fn call_words(call: &Call) -> InputWords {
    let kind = call_kind(call);
    match *call {
        Call::Tick { now } | Call::EmergencyStop { now } | Call::RecoverLocal { now } => {
            record(kind, [now])
        }
        Call::UpdateState { flags, now } => record(kind, [now, flags.word()]),
        Call::PollEstop { raised, now } => record(kind, [now, raised.word()]),
        Call::Acquire { request, now } => acquire_words(&request, now),
        Call::Renew(r) => {
            let fields = [r.now, r.owner, r.lease_id, r.renewal, r.duration_ms.word()];
            record(kind, fields)
        }
        Call::Cancel {
            owner,
            lease_id,
            now,
        } => record(kind, [now, owner, lease_id]),
        Call::Submit(order) => submit_words(&order),
        Call::Set { counter, value } => record(kind, [counter.word(), value]),
    }
}

fn acquire_words(r: &LeaseRequest, now: u64) -> InputWords {
    let [min0, max0, min1, max1] = bounds_words(&r.limits);
    let fields = [
        now,
        r.owner,
        r.resource.word(),
        r.capabilities,
        r.duration_ms.word(),
        min0,
        max0,
        min1,
        max1,
    ];
    record(InputKind::Acquire, fields)
}

fn submit_words(order: &Order) -> InputWords {
    let action = &order.action;
    let [parameter0, parameter1] = action.parameters.map(Word::word);
    let fields = [
        order.now,
        order.principal,
        order.received_at,
        action.boot_id,
        action.requester,
        action.lease_id,
        action.action_id,
        action.sequence,
        action.capability.word(),
        action.based_on_epoch,
        action.execute_after,
        action.deadline,
        action.valid_for_ms.word(),
        parameter0,
        parameter1,
    ];
    record(InputKind::Submit, fields)
}

fn reply_words(reply: &Reply) -> InputWords {
    let kind = reply_kind(reply);
    match *reply {
        Reply::Observed(Some(seen)) => {
            let [value0, value1] = seen.parameters.map(Word::word);
            record(kind, [true.word(), value0, value1, seen.state.word()])
        }
        Reply::Executed(ok) | Reply::FellBack(ok) => record(kind, [ok.word()]),
        Reply::Observed(None) | Reply::Recorded => record(kind, []),
    }
}

fn reading_words(reading: Reading) -> InputWords {
    let kind = reading_kind(reading);
    match reading {
        Reading::Lease(at) | Reading::Capability(at) | Reading::Receipt(at) => record(kind, [at]),
        _ => record(kind, []),
    }
}

/// The input of words that fit their kind.
fn sound(kind: InputKind, words: &InputWords) -> Input {
    let mut from = Taker(words[1..].iter());
    match kind {
        InputKind::Capability => Input::Capability(from.capability()),
        InputKind::Start => Input::Start(Opening {
            boot_id: from.take(),
            now: from.take(),
            flags: from.take(),
            config: from.config(),
        }),
        InputKind::Observed => Input::Reply(Reply::Observed(from.observation())),
        InputKind::Executed => Input::Reply(Reply::Executed(from.take())),
        InputKind::FellBack => Input::Reply(Reply::FellBack(from.take())),
        InputKind::Recorded => Input::Reply(Reply::Recorded),
        InputKind::State => Input::Read(Reading::State),
        InputKind::Epoch => Input::Read(Reading::Epoch),
        InputKind::BootId => Input::Read(Reading::BootId),
        InputKind::Flags => Input::Read(Reading::Flags),
        InputKind::ReceiptCount => Input::Read(Reading::ReceiptCount),
        InputKind::Config => Input::Read(Reading::Config),
        InputKind::Snapshot => Input::Read(Reading::Snapshot),
        InputKind::Lease => Input::Read(Reading::Lease(from.take())),
        InputKind::CapabilityAt => Input::Read(Reading::Capability(from.take())),
        InputKind::ReceiptAt => Input::Read(Reading::Receipt(from.take())),
        _ => from
            .call(kind)
            .map_or(Input::Malformed(*words), Input::Call),
    }
}

impl Taker<'_> {
    pub(super) fn capability(&mut self) -> Capability {
        Capability {
            id: self.take(),
            resource: self.take(),
            class: self.take(),
            parameter_count: self.take(),
            bounds: self.bounds(),
            require_set: self.take(),
            require_clear: self.take(),
            verification: match self.take() {
                false => Verification::Parameters,
                true => Verification::State {
                    mask: self.take(),
                    value: self.take(),
                },
            },
        }
    }

    pub(super) fn bounds(&mut self) -> [Bounds; 2] {
        [(); 2].map(|()| Bounds {
            min: self.take(),
            max: self.take(),
        })
    }

    fn config(&mut self) -> Config {
        Config {
            watchdog_ms: self.take(),
            state_ttl_ms: self.take(),
            max_lease_ms: self.take(),
            max_valid_for_ms: self.take(),
            invalid_limit: self.take(),
            estop_mask: self.take(),
        }
    }

    fn observation(&mut self) -> Option<Observation> {
        let ok: bool = self.take();
        ok.then(|| Observation {
            parameters: [self.take(), self.take()],
            state: self.take(),
        })
    }

    /// None for a kind that is no call.
    fn call(&mut self, kind: InputKind) -> Option<Call> {
        if kind == InputKind::Set {
            let (counter, value) = (self.take(), self.take());
            return Some(Call::Set { counter, value });
        }
        let now = self.take();
        Some(match kind {
            InputKind::Tick => Call::Tick { now },
            InputKind::UpdateState => Call::UpdateState {
                flags: self.take(),
                now,
            },
            InputKind::EmergencyStop => Call::EmergencyStop { now },
            InputKind::PollEstop => Call::PollEstop {
                raised: self.take(),
                now,
            },
            InputKind::RecoverLocal => Call::RecoverLocal { now },
            InputKind::Acquire => Call::Acquire {
                request: self.request(),
                now,
            },
            InputKind::Renew => Call::Renew(self.renewal(now)),
            InputKind::Cancel => Call::Cancel {
                owner: self.take(),
                lease_id: self.take(),
                now,
            },
            InputKind::Submit => Call::Submit(self.order(now)),
            _ => return None,
        })
    }

    fn request(&mut self) -> LeaseRequest {
        LeaseRequest {
            owner: self.take(),
            resource: self.take(),
            capabilities: self.take(),
            duration_ms: self.take(),
            limits: self.bounds(),
        }
    }

    fn renewal(&mut self, now: u64) -> Renewal {
        Renewal {
            owner: self.take(),
            lease_id: self.take(),
            renewal: self.take(),
            duration_ms: self.take(),
            now,
        }
    }

    fn order(&mut self, now: u64) -> Order {
        let (principal, received_at) = (self.take(), self.take());
        let action = Action {
            boot_id: self.take(),
            requester: self.take(),
            lease_id: self.take(),
            action_id: self.take(),
            sequence: self.take(),
            capability: self.take(),
            based_on_epoch: self.take(),
            execute_after: self.take(),
            deadline: self.take(),
            valid_for_ms: self.take(),
            parameters: [self.take(), self.take()],
        };
        Order {
            action,
            principal,
            received_at,
            now,
        }
    }
}

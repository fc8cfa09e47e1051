//! A life: one start and a list of calls, each with the replies of the driver.
//! `Display` writes the text that [`crate::parse`] reads.

use runtime_core::profile::CAPABILITIES;
use runtime_core::{
    Action, Bounds, Capability, Config, ExecutionClass, LeaseRequest, Observation, Verification,
};
use std::fmt;

/// One reply of the script, used up by an observe, an execute or a fallback.
#[derive(Clone, Copy, Debug, PartialEq, Eq)]
pub enum Reply {
    /// Success; an observe sees the parameters of the last execute that succeeded, state 0.
    Ok,
    Fail,
    /// Success; an observe sees this.
    See(Observation),
}

#[derive(Clone, Copy, Debug, PartialEq, Eq)]
pub enum Counter {
    Epoch,
    NextReceipt,
    NextLease,
    /// The count of rejections, which has 16 bits.
    InvalidCount,
}

impl Counter {
    pub const ALL: [Self; 4] = [
        Self::Epoch,
        Self::NextReceipt,
        Self::NextLease,
        Self::InvalidCount,
    ];

    /// Those of 64 bits: a tick that finds one of them at the top trips.
    pub const EXHAUSTIBLE: [Self; 3] = [Self::Epoch, Self::NextReceipt, Self::NextLease];

    pub const fn name(self) -> &'static str {
        match self {
            Self::Epoch => "epoch",
            Self::NextReceipt => "next_receipt",
            Self::NextLease => "next_lease",
            Self::InvalidCount => "invalid_count",
        }
    }
}

/// The arguments of `renew`.
#[derive(Clone, Copy, Debug, PartialEq, Eq)]
pub struct Renewal {
    pub owner: u64,
    pub lease_id: u64,
    pub renewal: u64,
    pub duration_ms: u32,
    pub now: u64,
}

/// The arguments of `submit`.
#[derive(Clone, Copy, Debug, PartialEq, Eq)]
pub struct Order {
    pub action: Action,
    pub principal: u64,
    pub received_at: u64,
    pub now: u64,
}

impl Order {
    /// When its validity ends; none past u64.
    pub const fn validity_end(&self) -> Option<u64> {
        self.received_at
            .checked_add(self.action.valid_for_ms as u64)
    }
}

#[derive(Clone, Copy, Debug, PartialEq, Eq)]
pub enum Call {
    Tick {
        now: u64,
    },
    UpdateState {
        flags: u32,
        now: u64,
    },
    EmergencyStop {
        now: u64,
    },
    PollEstop {
        raised: u32,
        now: u64,
    },
    RecoverLocal {
        now: u64,
    },
    Acquire {
        request: LeaseRequest,
        now: u64,
    },
    Renew(Renewal),
    Cancel {
        owner: u64,
        lease_id: u64,
        now: u64,
    },
    Submit(Order),
    /// No call of the runtime: sets a counter, in the build with `counters` only.
    Set {
        counter: Counter,
        value: u64,
    },
}

impl Call {
    /// The word that begins its line.
    pub const fn name(&self) -> &'static str {
        match self {
            Self::Tick { .. } => "tick",
            Self::UpdateState { .. } => "update_state",
            Self::EmergencyStop { .. } => "emergency_stop",
            Self::PollEstop { .. } => "poll_estop",
            Self::RecoverLocal { .. } => "recover_local",
            Self::Acquire { .. } => "acquire",
            Self::Renew(_) => "renew",
            Self::Cancel { .. } => "cancel",
            Self::Submit(_) => "submit",
            Self::Set { .. } => "set",
        }
    }

    /// The time of a call; `Set` has none.
    pub const fn now(&self) -> Option<u64> {
        match *self {
            Self::Tick { now }
            | Self::UpdateState { now, .. }
            | Self::EmergencyStop { now }
            | Self::PollEstop { now, .. }
            | Self::RecoverLocal { now }
            | Self::Acquire { now, .. }
            | Self::Renew(Renewal { now, .. })
            | Self::Cancel { now, .. }
            | Self::Submit(Order { now, .. }) => Some(now),
            Self::Set { .. } => None,
        }
    }
}

/// A call with the replies given for it.
#[derive(Clone, Debug, PartialEq, Eq)]
pub struct Step {
    pub replies: Vec<Reply>,
    pub call: Call,
}

/// The arguments of `Runtime::new` and the replies given for it.
#[derive(Clone, Debug)]
pub struct Start {
    pub config: Config,
    pub capabilities: Vec<Capability>,
    pub replies: Vec<Reply>,
    pub boot_id: u64,
    pub now: u64,
    pub flags: u32,
}

impl PartialEq for Start {
    fn eq(&self, other: &Self) -> bool {
        config_fields(&self.config) == config_fields(&other.config)
            && self.capabilities == other.capabilities
            && self.replies == other.replies
            && (self.boot_id, self.now, self.flags) == (other.boot_id, other.now, other.flags)
    }
}

impl Eq for Start {}

#[derive(Clone, Debug, PartialEq, Eq)]
pub struct Life {
    pub start: Start,
    pub steps: Vec<Step>,
}

/// The six fields with their names. The original's `Config` has no equality of its own.
pub const fn config_fields(config: &Config) -> [(&'static str, u32); 6] {
    [
        ("watchdog_ms", config.watchdog_ms),
        ("state_ttl_ms", config.state_ttl_ms),
        ("max_lease_ms", config.max_lease_ms),
        ("max_valid_for_ms", config.max_valid_for_ms),
        ("invalid_limit", config.invalid_limit as u32),
        ("estop_mask", config.estop_mask),
    ]
}

impl fmt::Display for Life {
    fn fmt(&self, f: &mut fmt::Formatter<'_>) -> fmt::Result {
        writeln!(f, "{}", self.start)?;
        self.steps.iter().try_for_each(|step| writeln!(f, "{step}"))
    }
}

impl fmt::Display for Step {
    fn fmt(&self, f: &mut fmt::Formatter<'_>) -> fmt::Result {
        write_replies(f, &self.replies)?;
        write!(f, "{}", self.call)
    }
}

impl fmt::Display for Start {
    fn fmt(&self, f: &mut fmt::Formatter<'_>) -> fmt::Result {
        let fields = config_fields(&self.config);
        if fields != config_fields(&Config::default()) {
            write!(f, "config")?;
            for (name, value) in fields {
                write!(f, " {name} {value}")?;
            }
            writeln!(f)?;
        }
        if self.capabilities == CAPABILITIES {
            writeln!(f, "profile")?;
        } else {
            for capability in &self.capabilities {
                writeln!(f, "{}", ShowCapability(capability))?;
            }
        }
        write_replies(f, &self.replies)?;
        let (boot_id, now, flags) = (self.boot_id, self.now, self.flags);
        write!(f, "start boot_id {boot_id} now {now} flags {flags}")
    }
}

fn write_replies(f: &mut fmt::Formatter<'_>, replies: &[Reply]) -> fmt::Result {
    if replies.is_empty() {
        return Ok(());
    }
    write!(f, "replies")?;
    for reply in replies {
        write!(f, " {reply}")?;
    }
    writeln!(f)
}

impl fmt::Display for Reply {
    fn fmt(&self, f: &mut fmt::Formatter<'_>) -> fmt::Result {
        match self {
            Self::Ok => write!(f, "ok"),
            Self::Fail => write!(f, "fail"),
            Self::See(seen) => write!(f, "{}", ShowObservation(seen)),
        }
    }
}

impl fmt::Display for Call {
    fn fmt(&self, f: &mut fmt::Formatter<'_>) -> fmt::Result {
        write!(f, "{}", self.name())?;
        match self {
            Self::Tick { .. } | Self::EmergencyStop { .. } | Self::RecoverLocal { .. } => {}
            Self::UpdateState { flags, .. } => write!(f, " flags {flags}")?,
            Self::PollEstop { raised, .. } => write!(f, " raised {raised}")?,
            Self::Acquire { request, .. } => write_request(f, request)?,
            Self::Renew(r) => write!(
                f,
                " owner {} lease_id {} renewal {} duration_ms {}",
                r.owner, r.lease_id, r.renewal, r.duration_ms,
            )?,
            Self::Cancel {
                owner, lease_id, ..
            } => write!(f, " owner {owner} lease_id {lease_id}")?,
            Self::Submit(order) => {
                write_action(f, &order.action)?;
                let (principal, received_at) = (order.principal, order.received_at);
                write!(f, " principal {principal} received_at {received_at}")?;
            }
            Self::Set { counter, value } => write!(f, " {} {value}", counter.name())?,
        }
        self.now().map_or(Ok(()), |now| write!(f, " now {now}"))
    }
}

fn write_request(f: &mut fmt::Formatter<'_>, request: &LeaseRequest) -> fmt::Result {
    write!(
        f,
        " owner {} resource {} capabilities {} duration_ms {} limits {}",
        request.owner,
        request.resource,
        request.capabilities,
        request.duration_ms,
        ShowLimits(&request.limits),
    )
}

fn write_action(f: &mut fmt::Formatter<'_>, action: &Action) -> fmt::Result {
    let Action {
        boot_id,
        requester,
        lease_id,
        action_id,
        sequence,
        capability,
        based_on_epoch,
        execute_after,
        deadline,
        valid_for_ms,
        parameters: [p0, p1],
    } = action;
    write!(
        f,
        " boot_id {boot_id} requester {requester} lease_id {lease_id} action_id {action_id} \
         sequence {sequence} capability {capability} based_on_epoch {based_on_epoch} \
         execute_after {execute_after} deadline {deadline} valid_for_ms {valid_for_ms} \
         parameters {p0} {p1}"
    )
}

/// A `capability` line.
pub struct ShowCapability<'a>(pub &'a Capability);

impl fmt::Display for ShowCapability<'_> {
    fn fmt(&self, f: &mut fmt::Formatter<'_>) -> fmt::Result {
        let c = self.0;
        let class = match c.class {
            ExecutionClass::Stream => "stream",
            ExecutionClass::Discrete => "discrete",
            ExecutionClass::Control => "control",
        };
        let [b0, b1] = c.bounds;
        write!(
            f,
            "capability id {} resource {} class {class} parameter_count {}",
            c.id, c.resource, c.parameter_count,
        )?;
        write!(
            f,
            " bounds {} {} {} {} require_set {} require_clear {} verification",
            b0.min, b0.max, b1.min, b1.max, c.require_set, c.require_clear,
        )?;
        match c.verification {
            Verification::Parameters => write!(f, " parameters"),
            Verification::State { mask, value } => write!(f, " state {mask} {value}"),
        }
    }
}

/// The two limits of a lease: `any` or two numbers each.
pub struct ShowLimits<'a>(pub &'a [Bounds; 2]);

impl fmt::Display for ShowLimits<'_> {
    fn fmt(&self, f: &mut fmt::Formatter<'_>) -> fmt::Result {
        for (n, limit) in self.0.iter().enumerate() {
            let gap = if n == 0 { "" } else { " " };
            if *limit == Bounds::ANY {
                write!(f, "{gap}any")?;
            } else {
                write!(f, "{gap}{} {}", limit.min, limit.max)?;
            }
        }
        Ok(())
    }
}

/// An observation as a reply.
pub struct ShowObservation<'a>(pub &'a Observation);

impl fmt::Display for ShowObservation<'_> {
    fn fmt(&self, f: &mut fmt::Formatter<'_>) -> fmt::Result {
        let Observation {
            parameters: [p0, p1],
            state,
        } = self.0;
        write!(f, "see {p0} {p1} {state}")
    }
}

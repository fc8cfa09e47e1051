//! A trace as text that a person can read.

use crate::driver::{Item, Replied};
use crate::life::{ShowLimits, ShowObservation};
use crate::run::{Answer, CallTrace, ItemTrace, LifeTrace, Readings, StartTrace};
use runtime_core::{ConfigError, Hidden, Lease, Reason, Receipt};
use std::fmt::{self, Display, Formatter};

/// A reason with its number, as in `model.rs`.
pub const fn reason_text(reason: Reason) -> &'static str {
    match reason {
        Reason::Ok => "0 Ok",
        Reason::Bound => "1 Bound",
        Reason::Stale => "2 Stale",
        Reason::Authority => "3 Authority",
        Reason::Duplicate => "4 Duplicate",
        Reason::Precondition => "5 Precondition",
        Reason::OldSequence => "6 OldSequence",
        Reason::Epoch => "7 Epoch",
        Reason::UnknownCapability => "8 UnknownCapability",
        Reason::TooEarly => "9 TooEarly",
        Reason::Invalid => "10 Invalid",
        Reason::Estop => "11 Estop",
        Reason::Faulted => "12 Faulted",
        Reason::Watchdog => "13 Watchdog",
        Reason::LeaseExpired => "14 LeaseExpired",
        Reason::StreamExpired => "15 StreamExpired",
        Reason::Driver => "16 Driver",
        Reason::Verification => "17 Verification",
        Reason::Clock => "18 Clock",
        Reason::Busy => "19 Busy",
        Reason::Canceled => "20 Canceled",
        Reason::InvalidStorm => "21 InvalidStorm",
        Reason::StateStale => "22 StateStale",
        Reason::BootMismatch => "23 BootMismatch",
        Reason::LeaseGranted => "24 LeaseGranted",
        Reason::LeaseRenewed => "25 LeaseRenewed",
        Reason::Recovered => "26 Recovered",
        Reason::Startup => "27 Startup",
    }
}

/// A start's refusal with the number that the port gives it.
pub const fn refusal_text(error: ConfigError) -> &'static str {
    match error {
        ConfigError::InvalidBootId => "101 InvalidBootId",
        ConfigError::InvalidConfig => "102 InvalidConfig",
        ConfigError::InvalidCapability => "103 InvalidCapability",
        ConfigError::DuplicateCapability => "104 DuplicateCapability",
        ConfigError::Driver => "105 Driver",
    }
}

/// The 22 fields of a receipt in the order of `model.rs`.
pub fn receipt_fields(r: &Receipt) -> [(&'static str, String); 22] {
    let pair = |[p0, p1]: [i32; 2]| format!("{p0} {p1}");
    [
        ("boot_id", r.boot_id.to_string()),
        ("principal", r.principal.to_string()),
        ("safety_flags", r.safety_flags.to_string()),
        ("receipt_id", r.receipt_id.to_string()),
        ("action_id", r.action_id.to_string()),
        ("sequence", r.sequence.to_string()),
        ("capability", r.capability.to_string()),
        ("resource", r.resource.to_string()),
        ("lease_id", r.lease_id.to_string()),
        ("decision", format!("{:?}", r.decision)),
        ("reason", reason_text(r.reason).to_string()),
        ("epoch", r.epoch.to_string()),
        ("received_at", r.received_at.to_string()),
        ("admitted_at", r.admitted_at.to_string()),
        ("executed_at", r.executed_at.to_string()),
        ("requested", pair(r.requested)),
        ("observed", pair(r.observed)),
        ("pre_state", r.pre_state.to_string()),
        ("post_state", r.post_state.to_string()),
        ("original_receipt", r.original_receipt.to_string()),
        ("dispatched", r.dispatched.to_string()),
        ("observed_valid", r.observed_valid.to_string()),
    ]
}

/// Number, decision and reason, then the other fields that are not 0 or false.
struct Short<'a>(&'a Receipt);

impl Display for Short<'_> {
    fn fmt(&self, f: &mut Formatter<'_>) -> fmt::Result {
        let Receipt {
            receipt_id,
            decision,
            reason,
            ..
        } = self.0;
        write!(f, "{receipt_id} {decision:?} {}", reason_text(*reason))?;
        for (name, value) in receipt_fields(self.0) {
            let blank = matches!(value.as_str(), "0" | "0 0" | "false");
            if !blank && !matches!(name, "receipt_id" | "decision" | "reason") {
                write!(f, " {name} {value}")?;
            }
        }
        Ok(())
    }
}

/// All 22 fields.
struct Full<'a>(&'a Receipt);

impl Display for Full<'_> {
    fn fmt(&self, f: &mut Formatter<'_>) -> fmt::Result {
        write!(f, "receipt")?;
        receipt_fields(self.0)
            .iter()
            .try_for_each(|(name, value)| write!(f, " {name} {value}"))
    }
}

struct ShowLease<'a>(&'a Lease);

impl Display for ShowLease<'_> {
    fn fmt(&self, f: &mut Formatter<'_>) -> fmt::Result {
        let l = self.0;
        write!(
            f,
            "id {} owner {} resource {} capabilities {} expires_at {} limits {} \
             last_sequence {} last_renewal {}",
            l.id,
            l.owner,
            l.resource,
            l.capabilities,
            l.expires_at,
            ShowLimits(&l.limits),
            l.last_sequence,
            l.last_renewal,
        )
    }
}

/// The numbers of the kept receipts, runs of neighbours as ranges.
struct Ranges<'a>(&'a [Receipt]);

impl Display for Ranges<'_> {
    fn fmt(&self, f: &mut Formatter<'_>) -> fmt::Result {
        if self.0.is_empty() {
            return write!(f, " none");
        }
        let follows = |a: &Receipt, b: &Receipt| a.receipt_id.checked_add(1) == Some(b.receipt_id);
        for run in self.0.chunk_by(follows) {
            let (first, last) = (run[0].receipt_id, run[run.len() - 1].receipt_id);
            if run.len() == 1 {
                write!(f, " {first}")?;
            } else {
                write!(f, " {first}-{last}")?;
            }
        }
        Ok(())
    }
}

/// One line with what changes in a life.
impl Display for Readings {
    fn fmt(&self, f: &mut Formatter<'_>) -> fmt::Result {
        write!(
            f,
            "{:?} epoch {} flags {} now {} sensor_tick {} next_receipt {} receipts{} leases",
            self.state,
            self.epoch,
            self.flags,
            self.snapshot.now,
            self.snapshot.sensor_tick,
            self.snapshot.next_receipt_id,
            Ranges(&self.receipts),
        )?;
        if self.snapshot.active_leases == 0 {
            write!(f, " none")?;
        }
        for lease in self.leases.iter().flatten() {
            write!(f, " ({})", ShowLease(lease))?;
        }
        Ok(())
    }
}

struct ShowHidden<'a>(&'a Hidden);

impl Display for ShowHidden<'_> {
    fn fmt(&self, f: &mut Formatter<'_>) -> fmt::Result {
        let h = self.0;
        write!(
            f,
            "hidden next_lease {} invalid_count {} estop_seen {} active",
            h.next_lease, h.invalid_count, h.estop_seen,
        )?;
        if h.active.iter().all(Option::is_none) {
            write!(f, " none")?;
        }
        for (axis, active) in h.active.iter().enumerate() {
            if let Some(a) = active {
                let (id, end) = (a.capability.id, a.expires_at);
                write!(f, " (resource {axis} capability {id} expires_at {end})")?;
            }
        }
        write!(f, " replay")?;
        if h.replay.is_empty() {
            write!(f, " none")?;
        }
        h.replay.iter().try_for_each(|r| {
            let (owner, id, receipt) = (r.owner, r.action_id, r.receipt);
            write!(f, " (owner {owner} action_id {id} receipt {receipt})")
        })
    }
}

fn write_readings(f: &mut Formatter<'_>, start: &str, readings: &Readings) -> fmt::Result {
    writeln!(f, "{start} {readings}")?;
    let indent = start.len() - start.trim_start().len();
    readings.hidden.as_ref().map_or(Ok(()), |hidden| {
        writeln!(f, "{:indent$}{}", "", ShowHidden(hidden))
    })
}

impl Display for ItemTrace {
    fn fmt(&self, f: &mut Formatter<'_>) -> fmt::Result {
        match &self.item {
            Item::Observe { resource } => write!(f, "  observe resource {resource}")?,
            Item::Execute {
                capability,
                parameters: [p0, p1],
            } => write!(f, "  execute capability {capability} parameters {p0} {p1}")?,
            Item::Fallback { resource, reason } => {
                let reason = reason_text(*reason);
                write!(f, "  fallback resource {resource} reason {reason}")?;
            }
            Item::Record { receipt } => write!(f, "  record {}", Short(receipt))?,
        }
        match &self.replied {
            Replied::Observed(seen) => writeln!(f, " -> {}", ShowObservation(seen))?,
            Replied::Done => writeln!(f, " -> ok")?,
            Replied::Failed => writeln!(f, " -> fail")?,
            Replied::Recorded => writeln!(f)?,
        }
        match &self.awaited {
            Some(readings) => write_readings(f, "    awaited", readings),
            None => Ok(()),
        }
    }
}

impl Display for Answer {
    fn fmt(&self, f: &mut Formatter<'_>) -> fmt::Result {
        match self {
            Self::None => write!(f, "none"),
            Self::Polled(seen) => write!(f, "{seen}"),
            Self::Done(Ok(())) => write!(f, "ok"),
            Self::Lease(Ok(lease)) => write!(f, "lease {}", ShowLease(lease)),
            Self::Done(Err(reason)) | Self::Lease(Err(reason)) => {
                write!(f, "{}", reason_text(*reason))
            }
            Self::Receipt(receipt) => write!(f, "receipt {}", Short(receipt)),
        }
    }
}

fn write_unused(f: &mut Formatter<'_>, unused: usize) -> fmt::Result {
    if unused == 0 {
        return Ok(());
    }
    writeln!(f, "  unused {unused}")
}

impl Display for StartTrace {
    fn fmt(&self, f: &mut Formatter<'_>) -> fmt::Result {
        writeln!(f, "{}", self.start)?;
        self.items.iter().try_for_each(|item| write!(f, "{item}"))?;
        write_unused(f, self.unused)?;
        match &self.answer {
            Ok(readings) => {
                writeln!(f, "  answer ok")?;
                write_readings(f, "  after", readings)
            }
            Err(error) => writeln!(f, "  answer {}", refusal_text(*error)),
        }
    }
}

impl Display for CallTrace {
    fn fmt(&self, f: &mut Formatter<'_>) -> fmt::Result {
        writeln!(f, "{}", self.step)?;
        self.items.iter().try_for_each(|item| write!(f, "{item}"))?;
        write_unused(f, self.unused)?;
        writeln!(f, "  answer {}", self.answer)?;
        write_readings(f, "  after", &self.after)
    }
}

impl LifeTrace {
    /// The readings at the end of the life; none if its start was refused.
    pub fn last(&self) -> Option<&Readings> {
        let start = self.start.answer.as_ref().ok();
        self.calls.last().map(|call| &call.after).or(start)
    }
}

impl Display for LifeTrace {
    fn fmt(&self, f: &mut Formatter<'_>) -> fmt::Result {
        write!(f, "{}", self.start)?;
        self.calls.iter().try_for_each(|call| write!(f, "{call}"))?;
        for step in &self.skipped {
            writeln!(f, "skipped {}", step.call)?;
        }
        let Some(last) = self.last() else {
            return Ok(());
        };
        let (count, boot_id) = (last.receipt_count, last.boot_id);
        writeln!(f, "end boot_id {boot_id} receipts {count}")?;
        for receipt in &last.receipts {
            writeln!(f, "  {}", Full(receipt))?;
        }
        Ok(())
    }
}

//! A log as calls: each with its items, the replies, the answer, and what was read after it. The
//! timeline and the picture tell it.

use crate::log::{Life, Moment};
use definitions::turns::{Reading, Reply};
use oracle::driver::Item;
use oracle::life::Call;
use oracle::runtime_core::{Lease, Reason, Receipt, Snapshot};
use oracle::show::reason_text;
use wire::format::{Input, Output};

/// An item with its reply.
#[derive(Clone, Copy, Debug)]
pub struct Handed {
    pub item: Item,
    /// None where the mains were cut.
    pub reply: Option<Reply>,
}

impl Handed {
    pub const fn failed(&self) -> bool {
        matches!(
            self.reply,
            Some(Reply::Observed(None) | Reply::Executed(false) | Reply::FellBack(false))
        )
    }
}

/// A start or a call.
#[derive(Clone, Debug)]
pub struct Told {
    pub call: Input,
    pub items: Vec<Handed>,
    /// None where the mains were cut, or where no output record came.
    pub answer: Option<Output>,
    /// What was read after it.
    pub snapshot: Option<Snapshot>,
    pub leases: Vec<Lease>,
    /// The last of its moments.
    pub last: usize,
}

impl Told {
    /// When it comes; none for a counter that is set.
    pub fn time(&self) -> Option<u64> {
        match self.call {
            Input::Start(opening) => Some(opening.now),
            Input::Call(call) => call.now(),
            _ => None,
        }
    }

    pub const fn name(&self) -> &'static str {
        match &self.call {
            Input::Call(call) => call.name(),
            _ => "start",
        }
    }

    /// The mains are cut in it.
    pub fn is_cut(&self) -> bool {
        self.answer.is_none() && self.items.last().is_some_and(|h| h.reply.is_none())
    }

    /// What it was answered, in few words.
    pub fn brief(&self) -> String {
        match &self.answer {
            _ if self.is_cut() => "mains cut".into(),
            Some(Output::Leased(lease)) => format!("lease {}", lease.id),
            Some(Output::Settled(receipt)) => brief_receipt(receipt),
            Some(Output::Refused(reason)) => reason_text(*reason).into(),
            Some(Output::StartRefused(number)) => format!("refused {number}"),
            Some(Output::Polled(seen)) => if *seen { "seen" } else { "not seen" }.into(),
            Some(Output::NoRuntime) => "no runtime".into(),
            Some(Output::Item(..)) | None => "no answer".into(),
            _ => "done".into(),
        }
    }
}

fn brief_receipt(receipt: &Receipt) -> String {
    match receipt.reason {
        Reason::Ok => format!("{:?}", receipt.decision),
        reason => reason_text(reason).into(),
    }
}

/// The calls of a life.
pub fn story(life: &Life) -> Vec<Told> {
    let mut calls: Vec<Told> = Vec::new();
    for moment in &life.moments {
        if moment.begins() {
            calls.push(Told {
                call: moment.input,
                items: Vec::new(),
                answer: None,
                snapshot: None,
                leases: Vec::new(),
                last: moment.at,
            });
        }
        if let Some(told) = calls.last_mut() {
            add(told, moment);
        }
    }
    calls
}

fn add(told: &mut Told, moment: &Moment) {
    if let (Input::Reply(reply), true) = (moment.input, moment.under.is_some()) {
        if let Some(handed) = told.items.last_mut() {
            handed.reply = Some(reply);
        }
    }
    if let Some(item) = moment.item() {
        told.items.push(Handed { item, reply: None });
    }
    if moment.under.is_some() {
        told.last = moment.at;
    }
    if moment.ends() {
        told.answer = moment.output;
    }
    match (moment.input, moment.output) {
        (_, Some(Output::Snapshot(snapshot))) => told.snapshot = Some(snapshot),
        (Input::Read(Reading::Lease(_)), Some(Output::Lease(lease))) => told.leases.extend(lease),
        _ => {}
    }
}

/// What a call asks for, in words.
pub fn call_text(call: &Input) -> String {
    match call {
        Input::Start(o) => format!("start: boot number {}, flags {}", o.boot_id, o.flags),
        Input::Call(call) => format!("{}{}", call.name(), arguments(call)),
        _ => "start".into(),
    }
}

fn arguments(call: &Call) -> String {
    match call {
        Call::Tick { .. } | Call::EmergencyStop { .. } | Call::RecoverLocal { .. } => String::new(),
        Call::UpdateState { flags, .. } => format!(": flags {flags}"),
        Call::PollEstop { raised, .. } => format!(": raised {raised}"),
        Call::Acquire { request: r, .. } => {
            let (owner, axis, ms) = (r.owner, r.resource, r.duration_ms);
            let list = bits(r.capabilities);
            format!(": owner {owner}, axis {axis}, capabilities {list}, for {ms} ms")
        }
        Call::Renew(r) => {
            let (owner, lease, ms) = (r.owner, r.lease_id, r.duration_ms);
            format!(
                ": owner {owner}, lease {lease}, renewal {}, for {ms} ms",
                r.renewal
            )
        }
        Call::Cancel {
            owner, lease_id, ..
        } => format!(": owner {owner}, lease {lease_id}"),
        Call::Submit(order) => {
            let a = &order.action;
            let [p0, p1] = a.parameters;
            format!(
                ": action {} of owner {}, capability {} ({p0}, {p1}), lease {}, sequence {}, \
                 boot number {}, epoch {}",
                a.action_id,
                order.principal,
                a.capability,
                a.lease_id,
                a.sequence,
                a.boot_id,
                a.based_on_epoch
            )
        }
        Call::Set { counter, value } => format!(" {} to {value}", counter.name()),
    }
}

/// The numbers of the bits that are set.
fn bits(mask: u64) -> String {
    let set = (0..u64::BITS).filter(|bit| mask >> bit & 1 == 1);
    let texts: Vec<String> = set.map(|bit| bit.to_string()).collect();
    texts.join(" ")
}

pub fn item_text(item: &Item) -> String {
    match item {
        Item::Observe { resource } => format!("observe axis {resource}"),
        Item::Execute {
            capability,
            parameters: [p0, p1],
        } => format!("EXECUTE capability {capability} ({p0}, {p1})"),
        Item::Fallback { resource, reason } => {
            format!("fallback axis {resource}, {}", reason_text(*reason))
        }
        Item::Record { receipt } => {
            let (id, decision) = (receipt.receipt_id, receipt.decision);
            format!("record {id}: {decision:?}, {}", reason_text(receipt.reason))
        }
    }
}

pub fn reply_text(reply: Option<Reply>) -> String {
    match reply {
        None => "(no reply: the mains are cut)".into(),
        Some(Reply::Observed(Some(seen))) => {
            let [p0, p1] = seen.parameters;
            format!("sees ({p0}, {p1}), state {}", seen.state)
        }
        Some(Reply::Executed(true) | Reply::FellBack(true)) => "done".into(),
        Some(Reply::Recorded) => "kept".into(),
        Some(_) => "FAILED".into(),
    }
}

/// The answer of a call, in words.
pub fn answer_text(told: &Told) -> String {
    match &told.answer {
        None if told.is_cut() => "the mains are cut here".into(),
        None => "no output record came".into(),
        Some(Output::Started) => "there is a runtime".into(),
        Some(Output::StartRefused(number)) => format!("the start was refused: {number}"),
        Some(Output::NoRuntime) => "there is no runtime".into(),
        Some(Output::Returned) => "done".into(),
        Some(Output::Polled(true)) => "a raise was seen".into(),
        Some(Output::Polled(false)) => "no raise was seen".into(),
        Some(Output::Succeeded) => "done".into(),
        Some(Output::Leased(lease)) => {
            format!("lease {} until {} ms", lease.id, lease.expires_at)
        }
        Some(Output::Refused(reason)) => format!("refused: {}", reason_text(*reason)),
        Some(Output::Settled(receipt)) => settled(receipt),
        Some(Output::Set) => "the counter was set".into(),
        Some(other) => format!("an answer out of place: {}", other.kind().name()),
    }
}

fn settled(receipt: &Receipt) -> String {
    let decision = format!("{:?}", receipt.decision);
    match (receipt.reason, receipt.original_receipt) {
        (Reason::Ok, _) => format!("{decision}, receipt {}", receipt.receipt_id),
        (reason, 0) => format!("{decision}: {}", reason_text(reason)),
        (reason, of) => format!("{decision}: {}, of receipt {of}", reason_text(reason)),
    }
}

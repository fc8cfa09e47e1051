//! Counts one life from its trace alone.

use super::catalogue::{decision_text, state_text, AXES, CHECKS, EDGES, PLACES};
use super::Counts;
use crate::checks;
use crate::driver::{Item, Replied};
use crate::history::History;
use crate::life::{Call, Order, Renewal};
use crate::run::{Answer, CallTrace, ItemTrace, LifeTrace, Readings, StartTrace};
use crate::show::{reason_text, refusal_text};
use runtime_core::{
    Decision, Reason, Receipt, RuntimeState, Verification, RECEIPT_CAPACITY, REPLAY_CAPACITY,
};

/// Counts a life.
pub fn count(counts: &mut Counts, trace: &LifeTrace) {
    start(counts, &trace.start);
    if !trace.skipped.is_empty() {
        counts.hit("life", "calls skipped");
    }
    let Ok(first) = &trace.start.answer else {
        return;
    };
    let mut memory = Memory::default();
    let mut before = first;
    for call in &trace.calls {
        Counting {
            counts,
            memory: &mut memory,
            before,
            call,
        }
        .all();
        memory.history.learn(call);
        before = &call.after;
    }
    memory.end(counts, before);
}

fn start(counts: &mut Counts, trace: &StartTrace) {
    items(counts, &trace.items);
    for item in &trace.items {
        if let (Item::Fallback { resource, .. }, Replied::Failed) = (item.item, item.replied) {
            counts.hit("startup fallback failed on", AXES[resource as usize]);
        }
    }
    let clause = checks::start(&trace.start);
    if let Some((name, _)) = clause {
        counts.hit("start refused by", name);
    }
    match &trace.answer {
        Ok(readings) => counts.hit("start accepted", state_text(readings.state)),
        Err(error) => counts.hit("start refused", refusal_text(*error)),
    }
    let failed = trace.items.iter().any(|i| i.replied == Replied::Failed);
    let answered = trace.answer.as_ref().err().copied();
    let expected = clause.map(|(_, error)| error);
    if expected.or(failed.then_some(runtime_core::ConfigError::Driver)) != answered {
        counts.hit("disagreement", "start");
    }
}

fn items(counts: &mut Counts, items: &[ItemTrace]) {
    for trace in items {
        counts.hit("item", item_name(&trace.item));
        if let Item::Fallback { reason, .. } = trace.item {
            counts.hit("fallback item", reason_text(reason));
            if trace.replied == Replied::Failed {
                counts.hit("fallback item failed", reason_text(reason));
            }
        }
    }
}

fn item_name(item: &Item) -> &'static str {
    match item {
        Item::Observe { .. } => "observe",
        Item::Execute { .. } => "execute",
        Item::Fallback { .. } => "fallback",
        Item::Record { .. } => "record",
    }
}

fn decision_group(decision: Decision) -> &'static str {
    match decision {
        Decision::Executed => "receipt Executed",
        Decision::Rejected => "receipt Rejected",
        Decision::Fallback => "receipt Fallback",
        Decision::Control => "receipt Control",
        Decision::Failed => "receipt Failed",
    }
}

/// What the counts remember of the life so far.
#[derive(Default)]
struct Memory {
    history: History,
    receipts: u64,
    two_owners: bool,
}

impl Memory {
    /// Owner and action id of the last 32 admitted.
    fn replay(&self) -> Vec<(u64, u64)> {
        let replay = self.history.replay().iter();
        replay.map(|a| (a.owner, a.action_id)).collect()
    }

    fn end(&self, counts: &mut Counts, last: &Readings) {
        if self.two_owners {
            counts.hit("life", "two owners at once");
        }
        if self.history.admitted.len() > REPLAY_CAPACITY {
            counts.hit("life", "over 32 admitted");
        }
        if self.receipts > RECEIPT_CAPACITY as u64 {
            counts.hit("life", "over 64 receipts");
        }
        for (name, value) in counters(last) {
            if value == u64::MAX {
                counts.hit("at the top", name);
            }
        }
    }
}

/// `next_lease` shows in the build with `counters` only; elsewhere none gets near the top.
fn counters(readings: &Readings) -> [(&'static str, u64); 3] {
    let hidden = readings.hidden.as_ref();
    [
        ("epoch", readings.epoch),
        ("next_receipt", readings.snapshot.next_receipt_id),
        ("next_lease", hidden.map_or(0, |h| h.next_lease)),
    ]
}

fn exhausted(readings: &Readings) -> bool {
    let counters = counters(readings);
    counters.iter().any(|(_, value)| *value == u64::MAX)
}

fn two_owners(readings: &Readings) -> bool {
    let mut owners = readings.leases.iter().flatten().map(|l| l.owner);
    owners
        .next()
        .is_some_and(|first| owners.any(|o| o != first))
}

/// One call with the readings before it.
struct Counting<'a> {
    counts: &'a mut Counts,
    memory: &'a mut Memory,
    before: &'a Readings,
    call: &'a CallTrace,
}

impl Counting<'_> {
    fn hit(&mut self, group: &'static str, name: &'static str) {
        self.counts.hit(group, name);
    }

    fn all(&mut self) {
        let call = self.call;
        self.hit("call", call.step.call.name());
        items(self.counts, &call.items);
        self.states();
        self.failures();
        self.times();
        match call.step.call {
            Call::Submit(order) => self.submit(&order),
            Call::UpdateState { flags, .. } => self.flags(flags),
            Call::PollEstop { raised, .. } => self.poll(raised),
            _ => self.answer(),
        }
        self.receipts();
        self.memory.two_owners |= two_owners(&call.after);
        if call.unused > 0 {
            self.hit("replies", "unused");
        }
        // The stamp passes the last tick only with a counter at the top.
        let snapshot = &call.after.snapshot;
        if snapshot.sensor_tick > snapshot.now && !exhausted(&call.after) {
            self.hit("disagreement", "stamp");
        }
    }

    fn states(&mut self) {
        self.hit("state after a call", state_text(self.call.after.state));
        for item in &self.call.items {
            if let Some(readings) = &item.awaited {
                self.hit("state during a wait", state_text(readings.state));
            }
        }
    }

    fn failures(&mut self) {
        let mut observes = 0;
        for item in &self.call.items {
            observes += usize::from(matches!(item.item, Item::Observe { .. }));
            let place = match item.item {
                Item::Observe { .. } if observes == 1 => 0,
                Item::Observe { .. } => 2,
                Item::Execute { .. } => 1,
                Item::Fallback { .. } | Item::Record { .. } => 3,
            };
            if item.replied == Replied::Failed {
                self.hit("item failed", PLACES[place]);
                if two_owners(self.before) {
                    self.hit("item failed, two owners", PLACES[place]);
                }
            }
        }
    }

    fn times(&mut self) {
        let call = &self.call.step.call;
        let Some(now) = call.now() else {
            return;
        };
        if now < self.before.snapshot.now {
            self.hit("clock back in", call.name());
        }
        if now > u64::MAX - 1000 {
            self.hit("time in the last second of u64 in", call.name());
        }
        let ticks = !matches!(call, Call::EmergencyStop { .. } | Call::PollEstop { .. });
        if ticks && self.before.state == RuntimeState::Armed {
            self.limits(now);
        }
    }

    /// A tick's time against the limits, as far as no earlier trip of the tick hides them.
    fn limits(&mut self, now: u64) {
        let before = self.before;
        let end = |from: u64, limit: u32| from.checked_add(limit as u64);
        let watchdog = end(before.snapshot.now, before.config.watchdog_ms);
        self.edge(0, now, watchdog);
        if watchdog.is_some_and(|end| now > end) || now < before.snapshot.now {
            return;
        }
        let stale = end(before.snapshot.sensor_tick, before.config.state_ttl_ms);
        self.edge(1, now, stale);
        if stale.is_some_and(|end| now >= end) {
            return;
        }
        for (axis, lease) in before.leases.iter().enumerate() {
            self.edge(2, now, lease.map(|l| l.expires_at));
            self.edge(3, now, self.memory.history.stream_end(axis));
        }
    }

    fn edge(&mut self, edge: usize, now: u64, limit: Option<u64>) {
        let Some(limit) = limit else {
            return;
        };
        let offset = now.wrapping_sub(limit).wrapping_add(1);
        if offset < 3 {
            self.hit("time at", EDGES[edge][offset as usize]);
        }
    }

    fn answer(&mut self) {
        match (self.call.step.call, self.call.answer) {
            (Call::RecoverLocal { now }, Answer::Done(answer)) => self.recover(now, answer),
            (Call::Cancel { .. }, Answer::Done(answer)) => {
                let text = answer.map_or_else(reason_text, |()| "ok");
                self.hit("answer of cancel", text);
            }
            (Call::Acquire { request, now }, Answer::Lease(answer)) => {
                let text = answer.map_or_else(reason_text, |_| "lease");
                self.hit("answer of acquire", text);
                let clause = checks::acquire(&request, now, &self.call.after);
                self.refusal("acquire refused by", answer.err(), clause);
            }
            (Call::Renew(asked), Answer::Lease(answer)) => {
                let text = answer.map_or_else(reason_text, |_| "lease");
                self.hit("answer of renew", text);
                self.renewal(&asked, answer.err());
            }
            _ => {}
        }
    }

    /// Counts the clause behind a refusal; its reason has to be the one answered.
    fn refusal(
        &mut self,
        group: &'static str,
        answered: Option<Reason>,
        clause: Option<(&'static str, Reason)>,
    ) {
        let Some(answered) = answered else {
            return;
        };
        match clause {
            Some((name, reason)) if reason == answered => self.hit(group, name),
            _ => self.hit("disagreement", self.call.step.call.name()),
        }
    }

    fn renewal(&mut self, asked: &Renewal, refused: Option<Reason>) {
        let clause = checks::renew(asked, &self.call.after);
        self.refusal("renew refused by", refused, clause);
        let expiry = |readings: &Readings| {
            let mut leases = readings.leases.iter().flatten();
            leases
                .find(|l| l.id == asked.lease_id)
                .map(|l| l.expires_at)
        };
        let name = match expiry(&self.call.after).cmp(&expiry(self.before)) {
            std::cmp::Ordering::Less => "shorter",
            std::cmp::Ordering::Equal => "equal",
            std::cmp::Ordering::Greater => "longer",
        };
        if refused.is_none() {
            self.hit("renewal", name);
        }
    }

    fn recover(&mut self, now: u64, answer: Result<(), Reason>) {
        let text = answer.map_or_else(reason_text, |()| "ok");
        self.hit("answer of recover_local", text);
        let after = &self.call.after;
        let from = state_text(self.before.state);
        match answer {
            Ok(()) => self.hit("recovery from", from),
            Err(Reason::Driver) => self.hit("failed recovery from", from),
            Err(reason) => {
                let clause = checks::recover(now, exhausted(after), after);
                self.refusal("recover_local refused by", Some(reason), clause);
            }
        }
        let later = now >= after.snapshot.now && now < after.snapshot.sensor_tick;
        if later && after.flags & after.config.estop_mask == 0 {
            self.hit("known fault", "stamp later than now");
        }
    }

    fn flags(&mut self, flags: u32) {
        let stop = flags & self.before.config.estop_mask != 0;
        let name = match (flags == self.before.flags, stop, self.before.state) {
            (true, _, _) => "equal",
            (false, true, RuntimeState::Estopped) => "stop again",
            (false, true, _) => "stop",
            (false, false, _) => "changed",
        };
        self.hit("new flags", name);
    }

    fn poll(&mut self, raised: u32) {
        let name = match raised.cmp(&self.memory.history.raised) {
            std::cmp::Ordering::Equal => "equal",
            std::cmp::Ordering::Greater => "above",
            std::cmp::Ordering::Less => "below",
        };
        self.hit("raise number", name);
        if let Answer::Polled(seen) = self.call.answer {
            let text = if seen { "true" } else { "false" };
            self.hit("answer of poll_estop", text);
        }
    }

    fn submit(&mut self, order: &Order) {
        let Answer::Receipt(receipt) = self.call.answer else {
            return;
        };
        self.edge(4, order.now, Some(order.action.deadline));
        self.edge(5, order.now, Some(order.action.execute_after));
        self.edge(6, order.now, order.validity_end());
        if receipt.receipt_id == u64::MAX {
            let text = decision_text(receipt.decision);
            self.hit("order with receipt 2^64 - 1", text);
        }
        if receipt.decision == Decision::Rejected {
            self.rejected(order, &receipt);
        } else {
            self.admitted(order, &receipt);
        }
    }

    fn rejected(&mut self, order: &Order, receipt: &Receipt) {
        let recorded = |item: &&ItemTrace| item.item == Item::Record { receipt: *receipt };
        let item = self.call.items.iter().find(recorded);
        let Some(at) = item.and_then(|item| item.awaited.as_ref()) else {
            return;
        };
        let failing = checks::submit(order, at, &self.memory.replay());
        match failing.first() {
            Some((_, name, reason)) if *reason == receipt.reason => {
                self.hit("submit refused by", name);
            }
            _ => self.hit("disagreement", "submit"),
        }
        if let Some((check, _, _)) = failing.first() {
            if failing.iter().all(|(other, _, _)| other == check) {
                self.hit("submit refused alone by", CHECKS[check - 1]);
            }
        }
        if receipt.reason == Reason::Duplicate {
            let mut replay = self.memory.history.replay().iter();
            let same = (order.principal, order.action.action_id);
            let original = replay.find(|a| (a.owner, a.action_id) == same);
            let text = original.map_or("none", |a| decision_text(a.decision));
            self.hit("duplicate of", text);
        }
    }

    fn admitted(&mut self, order: &Order, receipt: &Receipt) {
        let history = &self.memory.history;
        let (full, dropped) = (history.replay().len() == REPLAY_CAPACITY, history.dropped());
        let same = (order.principal, order.action.action_id);
        if dropped.iter().any(|a| (a.owner, a.action_id) == same) {
            self.hit("replay ring", "dropped id admitted again");
        }
        if full {
            self.hit("replay ring", "entry dropped");
        }
        self.every_check_holds(order);
        let mut capabilities = self.before.capabilities.iter();
        let capability = capabilities.find(|c| c.id == receipt.capability);
        let by_state =
            capability.is_some_and(|c| matches!(c.verification, Verification::State { .. }));
        match (receipt.decision, receipt.reason, by_state) {
            (Decision::Executed, _, false) => self.hit("verification", "Parameters held"),
            (Decision::Executed, _, true) => self.hit("verification", "State held"),
            (_, Reason::Verification, false) => self.hit("verification", "Parameters failed"),
            (_, Reason::Verification, true) => self.hit("verification", "State failed"),
            _ => {}
        }
    }

    /// An admitted order fails no clause, by the readings at its first observe. Its sequence
    /// is stored by then, so that check 11 can't be looked at.
    fn every_check_holds(&mut self, order: &Order) {
        let observe = |item: &&ItemTrace| matches!(item.item, Item::Observe { .. });
        let item = self.call.items.iter().find(observe);
        let Some(at) = item.and_then(|item| item.awaited.as_ref()) else {
            return;
        };
        let failing = checks::submit(order, at, &self.memory.replay());
        if failing.iter().any(|(check, _, _)| *check != 11) {
            self.hit("disagreement", "submit admitted");
        }
    }

    fn receipts(&mut self) {
        let mut kept = &self.before.receipts;
        for item in &self.call.items {
            let Item::Record { receipt } = item.item else {
                continue;
            };
            self.memory.receipts += 1;
            self.hit("decision", decision_text(receipt.decision));
            let group = decision_group(receipt.decision);
            self.hit(group, reason_text(receipt.reason));
            if let Some(readings) = &item.awaited {
                self.dropped(kept, &readings.receipts);
                kept = &readings.receipts;
            }
        }
    }

    /// A full ring drops its oldest rejection, else its oldest receipt.
    fn dropped(&mut self, kept: &[Receipt], now: &[Receipt]) {
        if kept.len() < RECEIPT_CAPACITY {
            return;
        }
        let rejected = kept.iter().position(|r| r.decision == Decision::Rejected);
        let place = rejected.unwrap_or(0);
        let left = kept[..place].iter().chain(&kept[place + 1..]);
        if !left.eq(&now[..now.len() - 1]) {
            self.hit("disagreement", "receipt dropped");
        }
        match rejected {
            None => self.hit("receipt dropped", "the oldest, no rejection kept"),
            Some(0) => self.hit("receipt dropped", "the oldest, a rejection"),
            Some(_) => self.hit("receipt dropped", "a rejection, not the oldest"),
        }
    }
}

//! Orders: valid ones, and ones with a single thing wrong.

use super::{Maker, Style};
use crate::life::{Call, Order};
use runtime_core::{Action, Bounds, Capability, Decision, Lease};

/// An order in the making, with the lease it is meant for.
struct Draft {
    order: Order,
    lease: Option<Lease>,
}

impl Maker {
    pub(super) fn submit(&mut self) -> Call {
        let now = self.now();
        match self.flags_wanted() {
            Some(flags) if self.rng.percent(70) => Call::UpdateState { flags, now },
            _ if self.style != Style::Clean && self.rng.percent(10) => self.again(now),
            _ => self.submit_at(now),
        }
    }

    /// A second try: the last order once more, or the id of one that failed.
    fn again(&mut self, now: u64) -> Call {
        let mut draft = self.draft(now);
        let replay = self.history.replay().iter();
        let failed = replay.filter(|a| a.decision == Decision::Failed);
        let own = failed.filter(|a| a.owner == draft.order.principal);
        let ids: Vec<u64> = own.map(|a| a.action_id).collect();
        match (self.rng.pick(&ids), self.last_order) {
            (Some(id), _) if self.rng.percent(70) => draft.order.action.action_id = id,
            (_, Some(order)) => draft.order = Order { now, ..order },
            _ => {}
        }
        Call::Submit(draft.order)
    }

    /// Flags that allow an order under some lease, if those there are allow none.
    fn flags_wanted(&mut self) -> Option<u32> {
        let flags = self.readings.flags;
        let leases = self.readings.leases.iter().flatten();
        let held: Vec<Capability> = leases.flat_map(|l| self.held(Some(l))).collect();
        if held.iter().any(|c| c.permits(flags)) {
            return None;
        }
        let c = self.rng.pick(&held)?;
        let stop = self.readings.config.estop_mask;
        Some((flags | c.require_set) & !c.require_clear & !stop)
    }

    fn submit_at(&mut self, now: u64) -> Call {
        let mut draft = self.draft(now);
        if self.spoils() {
            self.spoil(&mut draft);
            // Two at a time show the order of the checks.
            if self.rng.percent(15) {
                self.spoil(&mut draft);
            }
        }
        Call::Submit(draft.order)
    }

    /// An order with nothing wrong.
    pub(super) fn valid_order(&mut self, now: u64) -> Call {
        Call::Submit(self.draft(now).order)
    }

    /// An order that is admitted if its tick trips nothing. The fallbacks of leases and
    /// streams that end at this time are foreseen.
    fn draft(&mut self, now: u64) -> Draft {
        let due = self.due(now);
        let lease = self.a_lease_without(&due);
        let capability = self.capability_for(lease.as_ref());
        let (owner, lease_id, last) = lease.map_or((7, 1, 0), |l| (l.owner, l.id, l.last_sequence));
        let (received_at, valid_for_ms) = self.validity(now);
        let action_id = self.next_action;
        self.next_action += 1;
        let action = Action {
            boot_id: self.readings.boot_id,
            requester: owner,
            lease_id,
            action_id,
            sequence: last.saturating_add(self.rng.one_of([1, 1, 1, 2, 10])),
            capability: capability.id,
            based_on_epoch: self.readings.epoch.saturating_add(due.len() as u64),
            execute_after: self.rng.one_of([0, now, now, now.saturating_sub(1)]),
            deadline: now.saturating_add(self.rng.range(1, 100)),
            valid_for_ms,
            parameters: self.parameters(&capability, lease.as_ref()),
        };
        let order = Order {
            action,
            principal: owner,
            received_at,
            now,
        };
        Draft { order, lease }
    }

    /// A capability of the lease that the flags allow, if there is one.
    fn capability_for(&mut self, lease: Option<&Lease>) -> Capability {
        let flags = self.readings.flags;
        let held = self.held(lease);
        let allowed: Vec<Capability> = held.iter().copied().filter(|c| c.permits(flags)).collect();
        let one = self.rng.pick(&allowed).or_else(|| self.rng.pick(&held));
        one.unwrap_or_else(|| self.a_capability())
    }

    fn held(&self, lease: Option<&Lease>) -> Vec<Capability> {
        let mask = lease.map_or(0, |l| l.capabilities);
        let table = self.readings.capabilities.iter().copied();
        table.filter(|c| mask & (1u64 << c.id) != 0).collect()
    }

    /// When it was received and how long it is valid, with `now` inside.
    fn validity(&mut self, now: u64) -> (u64, u32) {
        let most = self.readings.config.max_valid_for_ms as u64;
        let age = self.rng.one_of([0, 0, 1, 5]).min(now).min(most - 1);
        let longest = most.min(u64::MAX - now + age).max(1);
        let long = self.rng.range(age + 1, longest.max(age + 1));
        let short = long.min(age + 20);
        let valid = self.rng.one_of([long, longest, short]);
        (now - age, valid as u32)
    }

    fn parameters(&mut self, capability: &Capability, lease: Option<&Lease>) -> [i32; 2] {
        [0, 1].map(|n| {
            let own = capability.bounds[n];
            let limit = lease.map_or(Bounds::ANY, |l| l.limits[n]);
            let both = Bounds {
                min: own.min.max(limit.min),
                max: own.max.min(limit.max),
            };
            self.between(if both.min <= both.max { both } else { own })
        })
    }

    fn spoil(&mut self, draft: &mut Draft) {
        match self.rng.below(12) {
            0..3 => self.spoil_authority(draft),
            3 | 4 => self.spoil_fields(draft),
            5 | 6 => self.spoil_memory(draft),
            7..10 => self.spoil_times(draft),
            _ => self.spoil_values(draft),
        }
    }

    fn spoil_authority(&mut self, draft: &mut Draft) {
        let action = &mut draft.order.action;
        match self.rng.below(8) {
            0 => action.boot_id = self.one_off(action.boot_id),
            1 => (draft.order.principal, action.requester) = (0, 0),
            2 => action.requester = self.one_off(action.requester),
            3 => action.capability = self.rng.one_of([0, 64, u16::MAX]),
            4 => action.capability = self.a_capability().id,
            5 => action.lease_id = self.one_off(action.lease_id),
            6 => {
                action.requester = self.one_off(action.requester);
                draft.order.principal = action.requester;
            }
            _ => {
                let (axis, mask) = draft.lease.map_or((0, 0), |l| (l.resource, l.capabilities));
                let clear = |c: &&Capability| c.resource == axis && mask & (1u64 << c.id) == 0;
                let others: Vec<u16> = self
                    .readings
                    .capabilities
                    .iter()
                    .filter(clear)
                    .map(|c| c.id)
                    .collect();
                action.capability = self.rng.pick(&others).unwrap_or(63);
            }
        }
    }

    fn spoil_fields(&mut self, draft: &mut Draft) {
        let action = &mut draft.order.action;
        match self.rng.below(6) {
            0 => action.action_id = 0,
            1 => action.sequence = 0,
            2 => draft.order.received_at = draft.order.now.saturating_add(1),
            3 => action.valid_for_ms = 0,
            4 => action.valid_for_ms = self.over(self.readings.config.max_valid_for_ms),
            _ => {
                let later = action.deadline.saturating_add(1);
                action.execute_after = self.rng.one_of([action.deadline, later]);
            }
        }
    }

    /// Ids and sequences that were used before.
    fn spoil_memory(&mut self, draft: &mut Draft) {
        let last = draft.lease.map_or(0, |l| l.last_sequence);
        let entries = match self.rng.below(4) {
            0 => {
                draft.order.action.sequence = self.rng.one_of([last, last.saturating_sub(1)]);
                return;
            }
            1 => self.history.dropped(),
            _ => self.history.replay(),
        };
        let own = entries.iter().filter(|a| a.owner == draft.order.principal);
        let ids: Vec<u64> = own.map(|a| a.action_id).collect();
        if let Some(id) = self.rng.pick(&ids) {
            draft.order.action.action_id = id;
        }
    }

    fn spoil_times(&mut self, draft: &mut Draft) {
        let (action, now) = (&mut draft.order.action, draft.order.now);
        let late = self.style == Style::Top && self.rng.percent(50);
        match if late { 0 } else { self.rng.below(6) } {
            // Past u64 if the time is late enough.
            0 => {
                draft.order.received_at = now;
                action.valid_for_ms = self.readings.config.max_valid_for_ms;
            }
            1 | 2 => {
                action.deadline = self.rng.one_of([now, now, now.saturating_sub(1)]);
                action.execute_after = 0;
            }
            3 | 4 => {
                let age = action.valid_for_ms as u64 + self.rng.below(2);
                draft.order.received_at = now.saturating_sub(age);
            }
            _ => {
                action.execute_after = now.saturating_add(self.rng.range(1, 3));
                action.deadline = action.execute_after.saturating_add(1);
            }
        }
    }

    fn spoil_values(&mut self, draft: &mut Draft) {
        let n = self.rng.index(2);
        let capability = self.readings.capabilities.iter();
        let capability = capability
            .copied()
            .find(|c| c.id == draft.order.action.capability);
        match self.rng.below(5) {
            0 => {
                draft.order.action.based_on_epoch = self.one_off(draft.order.action.based_on_epoch)
            }
            1 => {
                let bounds = capability.map_or(Bounds::ZERO, |c| c.bounds[n]);
                draft.order.action.parameters[n] = self.outside(bounds);
            }
            2 | 3 => {
                let bounds = draft.lease.map_or(Bounds::ZERO, |l| l.limits[n]);
                draft.order.action.parameters[n] = self.outside(bounds);
            }
            _ => {
                let flags = self.readings.flags;
                let mut held = self.held(draft.lease.as_ref());
                held.retain(|c| !c.permits(flags));
                if let Some(c) = self.rng.pick(&held) {
                    draft.order.action.capability = c.id;
                    draft.order.action.parameters = self.parameters(&c, draft.lease.as_ref());
                }
            }
        }
    }

    /// One below the bounds or one above, if there is one.
    fn outside(&mut self, bounds: Bounds) -> i32 {
        let (below, above) = (bounds.min.saturating_sub(1), bounds.max.saturating_add(1));
        self.rng.one_of([below, above])
    }
}

//! Leases as a host can count them: by the arguments of granted calls and by the fallbacks.

use crate::log::Moment;
use oracle::driver::Item;
use oracle::life::{Call, Order};
use oracle::runtime_core::{Capability, MAX_RESOURCES};
use wire::format::{Input, Output};

#[derive(Clone, Copy, Debug, PartialEq, Eq)]
pub struct Held {
    pub id: u64,
    pub owner: u64,
    pub capabilities: u64,
    /// None past u64.
    pub until: Option<u64>,
}

/// The lease that stands on each axis.
#[derive(Clone, Debug, Default)]
pub struct Book {
    pub leases: [Option<Held>; MAX_RESOURCES],
}

impl Book {
    /// Adds what the moment shows.
    pub fn see(&mut self, moment: &Moment) {
        if let Some(Item::Fallback { resource, .. }) = moment.item() {
            self.put(resource, None);
        }
        let (Some(Input::Call(call)), Some(Output::Leased(lease))) = (moment.under, moment.output)
        else {
            return;
        };
        match call {
            Call::Acquire { request, now } => {
                let held = Held {
                    id: lease.id,
                    owner: request.owner,
                    capabilities: request.capabilities,
                    until: now.checked_add(request.duration_ms.into()),
                };
                self.put(request.resource, Some(held));
            }
            Call::Renew(renewal) => {
                let mut held = self.leases.iter_mut().flatten();
                let of = |h: &&mut Held| h.id == renewal.lease_id && h.owner == renewal.owner;
                if let Some(held) = held.find(of) {
                    held.until = renewal.now.checked_add(renewal.duration_ms.into());
                }
            }
            _ => {}
        }
    }

    fn put(&mut self, axis: u8, held: Option<Held>) {
        if let Some(slot) = self.leases.get_mut(usize::from(axis)) {
            *slot = held;
        }
    }

    /// Why the order may not be executed; none if a lease of its principal covers it.
    pub fn objection(&self, order: &Order, capability: &Capability) -> Option<&'static str> {
        let axis = usize::from(capability.resource);
        let Some(held) = self.leases.get(axis).copied().flatten() else {
            return Some("no lease stands on its axis");
        };
        let bit = 1u64.checked_shl(capability.id.into()).unwrap_or(0);
        if held.id != order.action.lease_id {
            Some("it names another lease")
        } else if held.owner != order.principal || order.principal != order.action.requester {
            Some("the lease is not its principal's")
        } else if held.capabilities & bit == 0 {
            Some("the lease has not its capability")
        } else if held.until.is_none_or(|until| order.now >= until) {
            Some("the lease is over")
        } else {
            None
        }
    }
}

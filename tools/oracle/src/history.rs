//! What a trace tells of a life so far beyond its readings.

use crate::driver::Item;
use crate::life::{Call, Order};
use crate::run::{Answer, CallTrace};
use runtime_core::{Capability, Decision, ExecutionClass, Receipt, MAX_RESOURCES, REPLAY_CAPACITY};

/// An order that consumed its sequence and action id.
#[derive(Clone, Copy, Debug, PartialEq, Eq)]
pub struct Admitted {
    pub owner: u64,
    pub action_id: u64,
    pub decision: Decision,
}

/// A stream or a discrete order that was executed.
#[derive(Clone, Copy, Debug, PartialEq, Eq)]
pub struct Active {
    pub capability: Capability,
    /// When a stream ends; a discrete order ends with its lease.
    pub end: Option<u64>,
}

#[derive(Clone, Debug, Default)]
pub struct History {
    /// Oldest first, all of them.
    pub admitted: Vec<Admitted>,
    /// The supervised order of each axis.
    pub active: [Option<Active>; MAX_RESOURCES],
    /// The raise number last seen.
    pub raised: u32,
}

impl History {
    /// The last 32 admitted, which the replay ring holds.
    pub fn replay(&self) -> &[Admitted] {
        let dropped = self.admitted.len().saturating_sub(REPLAY_CAPACITY);
        &self.admitted[dropped..]
    }

    /// Those that the replay ring has dropped.
    pub fn dropped(&self) -> &[Admitted] {
        let dropped = self.admitted.len().saturating_sub(REPLAY_CAPACITY);
        &self.admitted[..dropped]
    }

    /// Adds a call.
    pub fn learn(&mut self, trace: &CallTrace) {
        for item in &trace.items {
            if let Item::Fallback { resource, .. } = item.item {
                self.active[resource as usize] = None;
            }
        }
        match (trace.step.call, trace.answer) {
            (Call::PollEstop { raised, .. }, _) => self.raised = raised,
            (Call::Submit(order), Answer::Receipt(receipt))
                if receipt.decision != Decision::Rejected =>
            {
                self.admit(&order, &receipt, trace);
            }
            _ => {}
        }
    }

    fn admit(&mut self, order: &Order, receipt: &Receipt, trace: &CallTrace) {
        self.admitted.push(Admitted {
            owner: receipt.principal,
            action_id: receipt.action_id,
            decision: receipt.decision,
        });
        if receipt.decision != Decision::Executed {
            return;
        }
        let mut capabilities = trace.after.capabilities.iter();
        let capability = capabilities.find(|c| c.id == receipt.capability);
        let axis = receipt.resource as usize;
        let lease = trace.after.leases[axis].map(|l| l.expires_at);
        self.active[axis] = capability.and_then(|capability| {
            let end = match capability.class {
                ExecutionClass::Stream => order.validity_end().min(lease),
                ExecutionClass::Discrete => None,
                ExecutionClass::Control => return None,
            };
            Some(Active {
                capability: *capability,
                end,
            })
        });
    }

    /// When the axis's stream ends, if it has one.
    pub fn stream_end(&self, axis: usize) -> Option<u64> {
        self.active[axis]?.end
    }
}

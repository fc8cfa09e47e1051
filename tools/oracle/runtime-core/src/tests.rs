//! Child module of `runtime.rs` in the build with `counters`: reaches its private fields.

use super::{Runtime, REPLAY_CAPACITY};
use crate::{ActiveOrder, Driver, Hidden, Receipt, ReplayEntry};

impl Runtime {
    pub fn set_epoch(&mut self, value: u64) {
        self.epoch = value;
    }

    pub fn set_next_receipt(&mut self, value: u64) {
        self.next_receipt = value;
    }

    pub fn set_next_lease(&mut self, value: u64) {
        self.next_lease = value;
    }

    pub fn set_invalid_count(&mut self, value: u16) {
        self.invalid_count = value;
    }

    /// One push into the ring of receipts, as every rule does it.
    pub fn push_receipt(&mut self, receipt: Receipt, driver: &mut impl Driver) {
        self.record(receipt, driver);
    }

    pub fn hidden(&self) -> Hidden {
        let newest_first = (1..=REPLAY_CAPACITY)
            .map(|back| (self.replay_cursor + REPLAY_CAPACITY - back) % REPLAY_CAPACITY);
        Hidden {
            last_tick: self.last_tick,
            state_at: self.state_at,
            next_lease: self.next_lease,
            invalid_count: self.invalid_count,
            estop_seen: self.estop_seen,
            replay: newest_first
                .filter_map(|slot| self.replay[slot])
                .map(|r| ReplayEntry {
                    owner: r.owner,
                    action_id: r.action_id,
                    receipt: r.receipt,
                })
                .collect(),
            active: self.active.map(|slot| {
                slot.map(|a| ActiveOrder {
                    capability: a.capability,
                    expires_at: a.expires_at,
                })
            }),
        }
    }
}

//! The driver's replies for the next call.

use super::Maker;
use crate::life::{Call, Order, Reply};
use runtime_core::{Observation, Verification};

impl Maker {
    pub(super) fn replies(&mut self, call: &Call) -> Vec<Reply> {
        if let Call::Set { .. } = call {
            return Vec::new();
        }
        if self.rng.percent(self.fail_chance(call)) {
            return self.failing(call);
        }
        match call {
            Call::Submit(order) => self.observations(order, true),
            // Left unused by most calls.
            _ if self.rng.percent(3) => vec![Reply::Ok; self.rng.index(4)],
            _ => Vec::new(),
        }
    }

    /// Higher where a failure is rare otherwise.
    fn fail_chance(&self, call: &Call) -> u64 {
        let mut active = self.history.active.iter().flatten();
        let rare = match call {
            Call::UpdateState { flags, .. } => active.any(|a| !a.capability.permits(*flags)),
            _ => call.now().is_some_and(|now| !self.due(now).is_empty()),
        };
        match self.emphasis.fail {
            0 => 0,
            chance if rare => chance.max(30),
            chance => chance,
        }
    }

    fn failing(&mut self, call: &Call) -> Vec<Reply> {
        match (self.rng.below(10), call) {
            (0, _) => vec![Reply::Fail; 20],
            (1 | 2, _) => (0..self.rng.index(20)).map(|_| self.either()).collect(),
            (3 | 4, Call::Submit(order)) => self.observations(order, false),
            (5..8, Call::Submit(order)) => {
                let place = self.due(order.now).len() + self.rng.index(3);
                let mut replies = vec![Reply::Ok; place];
                replies.push(Reply::Fail);
                // The fallbacks of the trip may fail too.
                replies.extend((0..self.rng.index(4)).map(|_| self.either()));
                replies
            }
            _ => {
                let longest = self.rng.one_of([1, 2, 4, 10]);
                let mut replies = vec![Reply::Ok; self.rng.index(longest)];
                replies.push(Reply::Fail);
                replies
            }
        }
    }

    fn either(&mut self) -> Reply {
        self.rng.one_of([Reply::Ok, Reply::Fail])
    }

    /// Two observations with an execute between; the second one verifies or not. The
    /// fallbacks that the tick makes go well.
    fn observations(&mut self, order: &Order, verifies: bool) -> Vec<Reply> {
        let action = &order.action;
        let mut table = self.readings.capabilities.iter();
        let capability = table.find(|c| c.id == action.capability);
        let verification = capability.map_or(Verification::Parameters, |c| c.verification);
        let plain = verification == Verification::Parameters;
        if verifies && plain && self.rng.percent(60) {
            return Vec::new();
        }
        let mut after = Observation {
            parameters: action.parameters,
            state: self.rng.draw() as u32,
        };
        match verification {
            Verification::Parameters if verifies => {}
            Verification::Parameters => {
                let n = self.rng.index(2);
                after.parameters[n] = after.parameters[n].wrapping_add(1);
            }
            Verification::State { mask, value } => {
                // One bit inside the mask is wrong.
                let wrong = if verifies {
                    0
                } else {
                    mask & mask.wrapping_neg()
                };
                after.state = (after.state & !mask) | (value ^ wrong);
                after.parameters = [self.rng.draw() as i32, 0];
            }
        }
        let before = Reply::See(Observation {
            parameters: [0; 2],
            state: self.rng.draw() as u32,
        });
        let mut replies = vec![Reply::Ok; self.due(order.now).len()];
        let first = self.rng.one_of([Reply::Ok, before]);
        replies.extend([first, Reply::Ok, Reply::See(after)]);
        replies
    }
}

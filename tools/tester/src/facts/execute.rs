//! Which orders reach `execute`.

use super::Verdict;
use crate::book::Book;
use crate::log::{Life, Moment};
use definitions::turns::Reply;
use oracle::driver::Item;
use oracle::life::{Call, Order};
use std::collections::HashMap;
use wire::format::{Input, InputWords};

/// The order whose submission is under way.
fn order(moment: &Moment) -> Option<Order> {
    match moment.under {
        Some(Input::Call(Call::Submit(order))) => Some(order),
        _ => None,
    }
}

/// What is handed to the driver, if this is an execute.
fn executes(moment: &Moment) -> Option<(u16, [i32; 2])> {
    match moment.item()? {
        Item::Execute {
            capability,
            parameters,
        } => Some((capability, parameters)),
        _ => None,
    }
}

/// The eleven fields of an order, and nothing of how it was sent.
fn eleven(order: &Order) -> InputWords {
    Input::Call(Call::Submit(Order {
        principal: 0,
        received_at: 0,
        now: 0,
        ..*order
    }))
    .words()
}

/// One order, all eleven fields alike, reaches execute at most once in all lives together.
pub fn once(lives: &[Life]) -> Verdict {
    let mut verdict = Verdict::default();
    let mut reached = HashMap::new();
    for (n, life) in lives.iter().enumerate() {
        for moment in &life.moments {
            let Some(order) = executes(moment).and(order(moment)) else {
                continue;
            };
            let earlier = reached.insert(eleven(&order), n + 1);
            let again = earlier.map(|life| {
                let (id, boot) = (order.action.action_id, order.action.boot_id);
                format!("action {id} of boot number {boot} was executed in life {life} already")
            });
            verdict.judge(moment.at, again);
        }
    }
    verdict
}

/// Nothing but a submission reaches execute, and it does so with what it asks for.
pub fn in_its_submission(lives: &[Life]) -> Verdict {
    let mut verdict = Verdict::default();
    for moment in lives.iter().flat_map(|life| &life.moments) {
        let Some(item) = executes(moment) else {
            continue;
        };
        let asked = order(moment).map(|o| (o.action.capability, o.action.parameters));
        let objection = match asked {
            None => Some("no submission is under way".into()),
            Some(asked) if asked != item => Some("the order asks for something else".into()),
            Some(_) => None,
        };
        verdict.judge(moment.at, objection);
    }
    verdict
}

/// The reply before an execute is an observation of its axis that succeeded.
pub fn after_observation(lives: &[Life]) -> Verdict {
    let mut verdict = Verdict::default();
    for life in lives {
        for moment in &life.moments {
            let Some((capability, _)) = executes(moment) else {
                continue;
            };
            let axis = life.capability(capability).map(|c| c.resource);
            let observed = matches!(moment.input, Input::Reply(Reply::Observed(Some(_))));
            let of_axis = match moment.awaited {
                Some(Item::Observe { resource }) => Some(resource) == axis,
                _ => false,
            };
            let bad = !(observed && of_axis);
            verdict.judge(
                moment.at,
                bad.then(|| "its axis was not observed before".into()),
            );
        }
    }
    verdict
}

/// A lease stands that an acquire of this life granted to the principal, on that axis, with that
/// capability; no fallback came since, and its time is not over.
pub fn under_lease(lives: &[Life]) -> Verdict {
    let mut verdict = Verdict::default();
    for life in lives {
        let mut book = Book::default();
        for moment in &life.moments {
            book.see(moment);
            let Some((capability, _)) = executes(moment) else {
                continue;
            };
            let objection = match (order(moment), life.capability(capability)) {
                (Some(order), Some(capability)) => book.objection(&order, capability),
                _ => Some("there is no such order or capability"),
            };
            verdict.judge(moment.at, objection.map(String::from));
        }
    }
    verdict
}

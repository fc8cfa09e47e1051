//! Small changes to a life, for what the generator seldom or never makes. They leave the course
//! of the life as it is.

use oracle::life::{Call, Life, Order, Reply, Start};
use oracle::prng::Prng;
use oracle::run::{run_life, Answer, CallTrace, Options, Runner};
use oracle::runtime_core::{ConfigError, Decision, Observation};

pub fn vary(life: &mut Life, rng: &mut Prng) {
    see_something_first(life, rng);
    break_two_conditions(life, rng);
    if rng.percent(50) {
        repeat_an_id(&mut life.start);
    }
}

/// A first observation that a failure follows shows any state, and not always 0.
fn see_something_first(life: &mut Life, rng: &mut Prng) {
    for step in &mut life.steps {
        let order = matches!(step.call, Call::Submit(_));
        let fails = step.replies.contains(&Reply::Fail);
        if let (true, true, Some(first)) = (order, fails, step.replies.first_mut()) {
            if *first == Reply::Ok {
                *first = Reply::See(Observation {
                    parameters: [rng.draw() as i32, 0],
                    state: rng.draw() as u32,
                });
            }
        }
    }
}

/// A rejected order breaks one more condition, which shows what is tested first.
fn break_two_conditions(life: &mut Life, rng: &mut Prng) {
    let trace = run_life(life, Options::default());
    let is_rejected = |call: &CallTrace| match call.answer {
        Answer::Receipt(receipt) => receipt.decision == Decision::Rejected,
        _ => false,
    };
    for (step, call) in life.steps.iter_mut().zip(&trace.calls) {
        if let (Call::Submit(order), true) = (&mut step.call, is_rejected(call)) {
            if rng.percent(60) {
                break_one(order, rng);
            }
        }
    }
}

fn break_one(order: &mut Order, rng: &mut Prng) {
    let now = order.now;
    let action = &mut order.action;
    match rng.below(11) {
        0 => action.boot_id = action.boot_id.wrapping_add(1),
        1 => action.requester = action.requester.wrapping_add(1),
        2 => action.capability = 64,
        3 => action.lease_id = action.lease_id.wrapping_add(1),
        4 => action.action_id = rng.below(2),
        5 => action.sequence = rng.below(2),
        6 => order.received_at = now.saturating_sub(action.valid_for_ms.into()),
        7 => (action.execute_after, action.deadline) = (0, now.max(1)),
        8 => {
            action.execute_after = now.saturating_add(1);
            action.deadline = action.deadline.max(now.saturating_add(2));
        }
        9 => action.based_on_epoch = action.based_on_epoch.wrapping_add(1),
        _ => action.parameters = [i32::MAX, i32::MIN],
    }
}

/// The first unsound record of a refused start has an id used earlier too.
fn repeat_an_id(start: &mut Start) {
    let is_unsound = |start: &Start| {
        let (trace, _) = Runner::start(start, Options::default());
        trace.answer.err() == Some(ConfigError::InvalidCapability)
    };
    let mut counts = 1..=start.capabilities.len();
    let first = counts.find(|count| {
        let mut part = start.clone();
        part.capabilities.truncate(*count);
        is_unsound(&part)
    });
    let earlier = start.capabilities.first().map_or(0, |c| c.id);
    let record = first.and_then(|count| start.capabilities.get_mut(count - 1));
    // Its fault must not be its id.
    if let Some(record) = record.filter(|c| (1..64).contains(&c.id)) {
        record.id = earlier;
    }
}

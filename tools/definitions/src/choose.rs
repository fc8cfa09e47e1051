//! Which of the generator's lives are taken: those that reach something new come first, so
//! that few lives reach much.

use crate::lives;
use oracle::checks;
use oracle::counts::Counts;
use oracle::driver::Item;
use oracle::life::Call;
use oracle::run::{run_life, Answer, CallTrace, LifeTrace, Options};
use oracle::runtime_core::Decision;
use std::collections::HashSet;

/// How many lives are looked at for each one that is taken, and how many at most.
const LOOKED_AT: u64 = 10;
const MOST_LOOKED_AT: u64 = 4000;

/// The numbers of the lives that are taken.
#[derive(Clone, Debug, Default, PartialEq, Eq)]
pub struct Choice {
    /// At most three quarters: each reaches something that none of them before it does.
    pub new: Vec<u64>,
    /// The first ones of all others.
    pub others: Vec<u64>,
}

pub fn choose(seed: u64, lives: u64, calls: u64) -> Choice {
    let pool = 0..lives.saturating_mul(LOOKED_AT).min(MOST_LOOKED_AT);
    let mut pool: Vec<(u64, HashSet<Row>)> = pool
        .map(|n| {
            (
                n,
                rows(&run_life(&lives::life(seed, n, calls), Options::ALL)),
            )
        })
        .collect();
    let mut new = Vec::new();
    let most = lives - lives / 4;
    while (new.len() as u64) < most {
        // The one that reaches most that is new; the first of several.
        let best = pool.iter().rev().max_by_key(|(_, rows)| rows.len());
        let Some((number, rows)) = best.filter(|(_, rows)| !rows.is_empty()).cloned() else {
            break;
        };
        new.push(number);
        for (_, others) in &mut pool {
            others.retain(|row| !rows.contains(row));
        }
    }
    let left = usize::try_from(lives).unwrap_or(usize::MAX) - new.len();
    let others = (0..).filter(|number| !new.contains(number));
    let others = others.take(left).collect();
    Choice { new, others }
}

/// Something that a life reaches: a group and a name in it.
type Row = (&'static str, String);

/// What a life reaches: the rows of the oracle's counts, and the first two checks that an order
/// fails at once, which show their order.
fn rows(trace: &LifeTrace) -> HashSet<Row> {
    let mut counts = Counts::default();
    counts.add(trace);
    let hit = counts.rows().iter().filter(|row| row.count > 0);
    let mut rows: HashSet<Row> = hit.map(|row| (row.group, row.name.to_string())).collect();
    for call in &trace.calls {
        if let Some([first, second, ..]) = failed_checks(call).as_deref() {
            rows.insert(("order fails", format!("{first} and {second}")));
        }
    }
    rows
}

/// The numbers of the admission checks that a rejected order fails, in their order.
fn failed_checks(call: &CallTrace) -> Option<Vec<usize>> {
    let (Call::Submit(order), Answer::Receipt(receipt)) = (call.step.call, call.answer) else {
        return None;
    };
    if receipt.decision != Decision::Rejected {
        return None;
    }
    // While its receipt is recorded all is as the opening tick left it, but for the receipt.
    let record = Item::Record { receipt };
    let at = call.items.iter().find(|item| item.item == record)?;
    let at = at.awaited.as_ref()?;
    let replay = at.hidden.as_ref()?.replay.iter();
    let replay: Vec<(u64, u64)> = replay.map(|r| (r.owner, r.action_id)).collect();
    let clauses = checks::submit(&order, at, &replay);
    let mut numbers: Vec<usize> = clauses.iter().map(|(number, _, _)| *number).collect();
    numbers.dedup();
    Some(numbers)
}

//! Numbers and times that only rise.

use super::Verdict;
use crate::log::{Life, Moment};
use definitions::turns::Reading;
use oracle::driver::Item;
use oracle::life::{Call, Counter};
use oracle::runtime_core::{Reason, Receipt};
use wire::format::{Input, Output};

/// A counter that the test entry sets here.
fn set(moment: &Moment) -> Option<(Counter, u64)> {
    match (moment.input, moment.output) {
        (Input::Call(Call::Set { counter, value }), Some(Output::Set)) => Some((counter, value)),
        _ => None,
    }
}

/// The receipt that is recorded here.
fn recorded(moment: &Moment) -> Option<Receipt> {
    match moment.item()? {
        Item::Record { receipt } => Some(receipt),
        _ => None,
    }
}

/// Receipts are numbered from 1 on, each one more than the last, and stay at the top of 64 bits.
pub fn receipts(lives: &[Life]) -> Verdict {
    let mut verdict = Verdict::default();
    for life in lives {
        let mut next = 1u64;
        for moment in &life.moments {
            if let Some((Counter::NextReceipt, value)) = set(moment) {
                next = value;
            }
            let Some(receipt) = recorded(moment) else {
                continue;
            };
            let (due, id) = (next, receipt.receipt_id);
            let wrong = id != due;
            verdict.judge(
                moment.at,
                wrong.then(|| format!("receipt {id}, due is {due}")),
            );
            next = id.saturating_add(1);
        }
    }
    verdict
}

/// The counters as far as outputs show them.
#[derive(Clone, Copy)]
struct Shown {
    epoch: u64,
    next_receipt: u64,
    next_lease: u64,
}

impl Shown {
    const FIRST: Self = Self {
        epoch: 1,
        next_receipt: 1,
        next_lease: 1,
    };

    fn at_top(&self) -> bool {
        [self.epoch, self.next_receipt, self.next_lease].contains(&u64::MAX)
    }

    fn set(&mut self, (counter, value): (Counter, u64)) {
        match counter {
            Counter::Epoch => self.epoch = value,
            Counter::NextReceipt => self.next_receipt = value,
            Counter::NextLease => self.next_lease = value,
            // No output shows it.
            Counter::InvalidCount => {}
        }
    }

    /// The epoch and the lease number that the moment shows, each against the last one.
    fn see(&mut self, moment: &Moment) -> Option<String> {
        let before = *self;
        if let Some(receipt) = recorded(moment) {
            self.next_receipt = receipt.receipt_id.saturating_add(1);
        }
        if let Some(Output::Snapshot(snapshot)) = moment.output {
            self.next_receipt = snapshot.next_receipt_id;
        }
        if let Some(id) = granted(moment) {
            self.next_lease = id.saturating_add(1);
            if id < before.next_lease {
                return Some(format!("lease {id} after {}", before.next_lease - 1));
            }
        }
        let epoch = epoch(moment)?;
        self.epoch = epoch;
        let falls = epoch < before.epoch;
        falls.then(|| format!("epoch {epoch} after {}", before.epoch))
    }
}

/// The number of a lease that is granted here.
fn granted(moment: &Moment) -> Option<u64> {
    match (moment.under, moment.output) {
        (Some(Input::Call(Call::Acquire { .. })), Some(Output::Leased(lease))) => Some(lease.id),
        _ => None,
    }
}

fn epoch(moment: &Moment) -> Option<u64> {
    match (moment.input, moment.output?) {
        (Input::Read(Reading::Epoch), Output::Number(epoch)) => Some(epoch),
        (_, Output::Snapshot(snapshot)) => Some(snapshot.epoch),
        (_, Output::Item(0, Item::Record { receipt })) => Some(receipt.epoch),
        _ => None,
    }
}

/// Epoch and lease numbers never fall, and a call that begins with a counter at the top grants
/// nothing and executes nothing.
pub fn hold(lives: &[Life]) -> Verdict {
    let mut verdict = Verdict::default();
    for life in lives {
        let mut shown = Shown::FIRST;
        let mut full = false;
        for moment in &life.moments {
            if moment.begins() {
                full = shown.at_top();
            }
            if let Some(set) = set(moment) {
                shown.set(set);
                continue;
            }
            let executes = matches!(moment.item(), Some(Item::Execute { .. }));
            let grants = matches!(moment.output, Some(Output::Leased(_)));
            if !executes && !grants && epoch(moment).is_none() {
                continue;
            }
            let past = full && (executes || grants);
            let fell = shown.see(moment);
            let objection = past.then(|| "a counter is at the top".into()).or(fell);
            verdict.judge(moment.at, objection);
        }
    }
    verdict
}

/// The last tick that snapshots show never goes back; a call with an earlier time begins with a
/// fallback for the clock. A stop may come with any time.
pub fn clock(lives: &[Life]) -> Verdict {
    let mut verdict = Verdict::default();
    for life in lives {
        let mut last = 0;
        for moment in &life.moments {
            if let Some(Output::Snapshot(snapshot)) = moment.output {
                let (now, before) = (snapshot.now, last);
                let back = now < before;
                verdict.judge(
                    moment.at,
                    back.then(|| format!("last tick {now} after {before}")),
                );
                last = now;
            }
            if let Some(now) = late(moment, last) {
                let clock = matches!(
                    moment.item(),
                    Some(Item::Fallback {
                        reason: Reason::Clock,
                        ..
                    })
                );
                let wrong = !clock;
                verdict.judge(
                    moment.at,
                    wrong.then(|| format!("no trip 18 at {now}, last tick {last}")),
                );
            }
        }
    }
    verdict
}

/// The time of a call that begins here and comes before the last tick.
fn late(moment: &Moment, last: u64) -> Option<u64> {
    let Some(Input::Call(call)) = moment.under.filter(|_| moment.begins()) else {
        return None;
    };
    let any_time = matches!(call, Call::EmergencyStop { .. } | Call::PollEstop { .. });
    call.now().filter(|now| !any_time && *now < last)
}

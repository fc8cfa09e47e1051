//! Makes a failing life as small as it can: as few lives, calls, replies, capabilities and woven
//! inputs as still show a difference. Each try runs the Rust anew.

use crate::batch::{record, Batch, Run};
use crate::engine::Engine;
use crate::format::{OutputWords, OUTPUT_BYTES};
use crate::play::{play, Plan, Weaving};
use crate::turn::Turn;
use crate::weave::Amount;
use oracle::life::Call;
use oracle::runtime_core::{Bounds, Config, LeaseRequest};

/// How many tries are made at most.
const TRIES: usize = 4000;

/// A difference from the Rust, and the little that leads to it.
#[derive(Clone, Debug)]
pub struct Shrunk {
    pub plans: Vec<Plan>,
    /// All that goes in; the last one's output differs.
    pub turns: Vec<Turn>,
    /// None if more was written than is demanded.
    pub demanded: Option<OutputWords>,
    /// None if it was not written.
    pub got: Option<OutputWords>,
    /// What the engine itself saw to be wrong.
    pub complaint: Option<String>,
}

/// Shrinks the last life of a list, with those before it as far as they matter. None if there
/// is no difference.
pub fn shrink(engine: &mut dyn Engine, plans: &[Plan]) -> Option<Shrunk> {
    let mut shrinker = Shrinker { engine, tries: 0 };
    let mut plans = shrinker.fewest_lives(plans)?;
    shrinker.calm(&mut plans);
    loop {
        let before = plans.clone();
        shrinker.smaller(&mut plans);
        if plans == before {
            break;
        }
    }
    shrinker.turns(plans)
}

/// The smallest part of a list of turns that shows a difference, if the list does.
pub fn shrink_turns(engine: &mut dyn Engine, turns: &[Turn]) -> Option<Shrunk> {
    let mut shrinker = Shrinker { engine, tries: 0 };
    let place = shrinker.difference(turns)?;
    shrinker.woven(Vec::new(), turns[..=place.min(turns.len() - 1)].to_vec())
}

struct Shrinker<'a> {
    engine: &'a mut dyn Engine,
    tries: usize,
}

/// A part of a plan that can be left out: how many there are, and one part dropped.
type Part = (fn(&Plan) -> usize, fn(&mut Plan, usize, usize));

const PARTS: [Part; 3] = [
    (
        |plan| plan.life.steps.len(),
        |plan, from, to| {
            plan.life.steps.drain(from..to);
        },
    ),
    (
        |plan| plan.life.start.capabilities.len(),
        |plan, from, to| {
            plan.life.start.capabilities.drain(from..to);
        },
    ),
    (
        |plan| plan.life.start.replies.len(),
        |plan, from, to| {
            plan.life.start.replies.drain(from..to);
        },
    ),
];

impl Shrinker<'_> {
    /// The place of the first turn whose output differs.
    fn difference(&mut self, turns: &[Turn]) -> Option<usize> {
        self.tries += 1;
        let batch = Batch::of(turns);
        let room = batch.demanded.len() + OUTPUT_BYTES;
        let run = Run::of(self.engine, &batch.input, room);
        run.difference(&batch.demanded)
    }

    fn differs(&mut self, plans: &[Plan]) -> bool {
        if self.tries >= TRIES {
            return false;
        }
        let mut turns = Vec::new();
        play(plans, &mut turns);
        self.difference(&turns).is_some()
    }

    /// Takes the change if the difference stays.
    fn try_plans(&mut self, plans: &mut Vec<Plan>, change: impl FnOnce(&mut Vec<Plan>)) -> bool {
        let mut changed = plans.clone();
        change(&mut changed);
        let taken = changed != *plans && self.differs(&changed);
        if taken {
            *plans = changed;
        }
        taken
    }

    /// The last life, and as many before it as it takes.
    fn fewest_lives(&mut self, plans: &[Plan]) -> Option<Vec<Plan>> {
        let mut count = 1;
        loop {
            let from = plans.len().saturating_sub(count);
            if self.differs(&plans[from..]) {
                return Some(plans[from..].to_vec());
            }
            if from == 0 {
                return None;
            }
            count *= 2;
        }
    }

    /// With nothing put in, or everything, so that it does not depend on random numbers.
    fn calm(&mut self, plans: &mut Vec<Plan>) {
        let each = |plans: &mut Vec<Plan>, change: &dyn Fn(&mut Weaving)| {
            plans.iter_mut().for_each(|plan| change(&mut plan.weaving));
        };
        self.try_plans(plans, |plans| each(plans, &|w| w.cut = None));
        self.try_plans(plans, |plans| each(plans, &|w| w.ahead = false));
        let amounts = [
            Amount::Nothing,
            Amount::Snapshots,
            Amount::End,
            Amount::Everything,
            Amount::Malformed,
        ];
        for amount in amounts {
            if self.try_plans(plans, |plans| each(plans, &|w| w.amount = amount)) {
                break;
            }
        }
    }

    /// Leaves out what can be left out, the larger parts first.
    fn smaller(&mut self, plans: &mut Vec<Plan>) {
        let mut place = 0;
        while place + 1 < plans.len() {
            let dropped = self.try_plans(plans, |plans| {
                plans.remove(place);
            });
            place += usize::from(!dropped);
        }
        for n in 0..plans.len() {
            for part in PARTS {
                self.part(plans, n, part);
            }
            self.replies(plans, n);
            self.requests(plans, n);
            self.try_plans(plans, |plans| {
                plans[n].life.start.config = Config::default()
            });
        }
    }

    /// Drops halves, quarters and so on.
    fn part(&mut self, plans: &mut Vec<Plan>, n: usize, (len, drop): Part) {
        let mut size = len(&plans[n]).div_ceil(2);
        while size > 0 {
            let mut from = 0;
            while from < len(&plans[n]) {
                let to = (from + size).min(len(&plans[n]));
                let dropped = self.try_plans(plans, |plans| drop(&mut plans[n], from, to));
                from = if dropped { from } else { to };
            }
            size /= 2;
        }
    }

    /// Replies that are all good, or of which the last ones are.
    fn replies(&mut self, plans: &mut Vec<Plan>, n: usize) {
        for step in 0..plans[n].life.steps.len() {
            let replies = |plans: &mut Vec<Plan>, len: usize| {
                plans[n].life.steps[step].replies.truncate(len);
            };
            self.try_plans(plans, |plans| replies(plans, 0));
            let len = plans[n].life.steps[step].replies.len();
            self.try_plans(plans, |plans| replies(plans, len.saturating_sub(1)));
        }
    }

    /// Leases for one capability, with no limits.
    fn requests(&mut self, plans: &mut Vec<Plan>, n: usize) {
        for step in 0..plans[n].life.steps.len() {
            let mut change = |change: fn(&mut LeaseRequest)| {
                self.try_plans(plans, |plans| {
                    if let Call::Acquire { request, .. } = &mut plans[n].life.steps[step].call {
                        change(request);
                    }
                });
            };
            change(|r| r.capabilities &= r.capabilities.wrapping_neg());
            change(|r| r.limits = [Bounds::ANY; 2]);
        }
    }

    /// The turns up to the one that differs, without the woven ones that don't matter.
    fn turns(&mut self, plans: Vec<Plan>) -> Option<Shrunk> {
        let mut turns = Vec::new();
        play(&plans, &mut turns);
        let place = self.difference(&turns)?;
        turns.truncate(place + 1);
        self.woven(plans, turns)
    }

    fn woven(&mut self, plans: Vec<Plan>, mut turns: Vec<Turn>) -> Option<Shrunk> {
        let mut size = turns.len().div_ceil(2);
        while size > 0 {
            let mut from = 0;
            while from < turns.len() {
                let to = (from + size).min(turns.len());
                // The next step copies the whole list, which may be long.
                if !turns[from..to].iter().any(|turn| turn.woven) {
                    from = to;
                    continue;
                }
                let left = without_woven(&turns, from, to);
                let kept = to - (turns.len() - left.len());
                let smaller = self.difference(&left).is_some();
                (turns, from) = if smaller { (left, kept) } else { (turns, to) };
            }
            size /= 2;
        }
        let place = self.difference(&turns)?;
        turns.truncate(place + 1);
        let batch = Batch::of(&turns);
        let run = Run::of(
            self.engine,
            &batch.input,
            batch.demanded.len() + OUTPUT_BYTES,
        );
        Some(Shrunk {
            plans,
            turns,
            demanded: record(&batch.demanded, place),
            got: run.record(place),
            complaint: self.engine.complaint().map(String::from),
        })
    }
}

/// The turns, but of those in between only the ones that are not woven.
fn without_woven(turns: &[Turn], from: usize, to: usize) -> Vec<Turn> {
    let between = turns[from..to].iter().filter(|turn| !turn.woven);
    let all = turns[..from].iter().chain(between).chain(&turns[to..]);
    all.copied().collect()
}

//! The four campaigns: which trials each one makes.

use crate::session::{session, Back, Twist};
use crate::trial::{plain_turns, Trial};
use oracle::driver::Item;
use oracle::life::{Call, Counter, Life, Order, Step};
use oracle::prng::Prng;
use wire::format::{Input, Output};
use wire::lives::Lives;
use wire::play::{Cut, Plan};
use wire::weave::Amount;

#[derive(Clone, Copy, Debug, PartialEq, Eq)]
pub enum Campaign {
    /// A mains cut after every item, then a new life that tries the same orders again.
    Cuts,
    /// A driver that fails at every place in turn, while the PC and the panel hold leases.
    Faults,
    /// Counters at the end of 64 bits.
    Counters,
    /// A clock that steps back inside an emergency stop.
    Clock,
}

/// One life in so many of `cuts` is one of the oracle's random lives, with at most so many calls.
const RANDOM_EVERY: u64 = 3;
const RANDOM_CALLS: usize = 24;

/// One trial in so many has readings and inputs out of place put in.
const WOVEN_EVERY: u64 = 8;

/// The calls before which a counter is set or the clock steps back.
const PLACES: usize = 12;

/// How far below the top a counter is set, at most.
const BELOW: u64 = 3;

impl Campaign {
    pub const ALL: [Self; 4] = [Self::Cuts, Self::Faults, Self::Counters, Self::Clock];

    pub const fn name(self) -> &'static str {
        match self {
            Self::Cuts => "cuts",
            Self::Faults => "faults",
            Self::Counters => "counters",
            Self::Clock => "clock",
        }
    }

    pub fn named(name: &str) -> Option<Self> {
        Self::ALL.into_iter().find(|c| c.name() == name)
    }

    /// How many lives it begins from, if nothing is said.
    pub const fn default_lives(self) -> u64 {
        match self {
            Self::Cuts | Self::Faults | Self::Clock => 250,
            Self::Counters => 80,
        }
    }

    /// All trials that begin from the life of this number.
    pub fn trials(self, seed: u64, number: u64) -> Vec<Trial> {
        let mut trials = match self {
            Self::Cuts => cuts(seed, number),
            Self::Faults => faults(seed, number),
            Self::Counters => counters(seed, number),
            Self::Clock => clock(seed, number),
        };
        for (n, trial) in trials.iter_mut().enumerate() {
            let woven = (number + n as u64).is_multiple_of(WOVEN_EVERY);
            for plan in &mut trial.plans {
                plan.weaving.seed = seed;
                plan.weaving.number = number;
                plan.weaving.amount = match woven {
                    true => Amount::Few,
                    false => Amount::Snapshots,
                };
            }
        }
        trials
    }
}

fn one_life(about: String, life: Life) -> Trial {
    Trial {
        about,
        plans: vec![Plan::plain(life)],
    }
}

fn cuts(seed: u64, number: u64) -> Vec<Trial> {
    let life = if number % RANDOM_EVERY == RANDOM_EVERY - 1 {
        let counters = false;
        let mut life = Lives { seed, counters }.life(number);
        life.steps.truncate(RANDOM_CALLS);
        life
    } else {
        session(seed, number, Twist::None)
    };
    let again = retry(&life);
    let whole = Plan::plain(life);
    let trial = |cut: Option<Cut>| {
        let mut first = whole.clone();
        first.weaving.cut = cut;
        let about = match cut {
            Some(Cut { step, wait }) => format!("cut after item {} of call {step}", wait + 1),
            None => "no cut".into(),
        };
        Trial {
            about,
            plans: vec![first, Plan::plain(again.clone())],
        }
    };
    let cuts = items(&whole).into_iter().map(Some);
    cuts.chain([None]).map(trial).collect()
}

/// A cut after each item of a life.
fn items(plan: &Plan) -> Vec<Cut> {
    let mut cuts = Vec::new();
    let (mut step, mut wait) = (0, 0);
    for turn in plain_turns(plan) {
        if let Input::Call(_) = turn.input {
            (step, wait) = (step + 1, 0);
        }
        if let Output::Item(0, _) = turn.output {
            cuts.push(Cut { step, wait });
            wait += 1;
        }
    }
    cuts
}

/// The life once more under a new boot number: every order comes first as it was, all eleven
/// fields alike, then as an order of the new life.
fn retry(life: &Life) -> Life {
    let mut again = life.clone();
    let boot_id = life.start.boot_id.checked_add(1).unwrap_or(1);
    again.start.boot_id = boot_id;
    again.steps = life.steps.iter().flat_map(|s| both(s, boot_id)).collect();
    again
}

fn both(step: &Step, boot_id: u64) -> Vec<Step> {
    let Call::Submit(order) = step.call else {
        return vec![step.clone()];
    };
    let mut fresh = order.action;
    fresh.boot_id = boot_id;
    let order = Order {
        action: fresh,
        ..order
    };
    let new = Step {
        replies: step.replies.clone(),
        call: Call::Submit(order),
    };
    vec![step.clone(), new]
}

fn faults(seed: u64, number: u64) -> Vec<Trial> {
    let good = session(seed, number, Twist::None);
    let turns = plain_turns(&Plan::plain(good));
    let asks = |output: &Output| match output {
        Output::Item(0, item) => !matches!(item, Item::Record { .. }),
        _ => false,
    };
    let replies = turns.iter().filter(|turn| asks(&turn.output)).count() as u64;
    let trials = (0..replies).flat_map(|from| {
        let more = 2 + (from + number) % 7;
        [1, more].map(|count| {
            let life = session(seed, number, Twist::Failing { from, count });
            let (first, last) = (from + 1, from + count);
            let about = match count {
                1 => format!("reply {first} fails"),
                _ => format!("replies {first} to {last} fail"),
            };
            one_life(about, life)
        })
    });
    trials.collect()
}

fn counters(seed: u64, number: u64) -> Vec<Trial> {
    let mut trials = Vec::new();
    for call in 0..PLACES {
        for counter in Counter::EXHAUSTIBLE {
            trials.extend((0..=BELOW).map(|below| {
                let twist = Twist::Counter {
                    call,
                    counter,
                    below,
                };
                let about = format!("{} at the top less {below}", counter.name());
                one_life(about, session(seed, number, twist))
            }));
        }
    }
    trials
}

fn clock(seed: u64, number: u64) -> Vec<Trial> {
    let mut rng = Prng::new(!seed, number);
    let mut trials = Vec::new();
    for call in 0..PLACES {
        let steps = [
            (1, 0),
            (rng.range(2, 100), 0),
            (rng.range(100, 600), 0),
            (rng.range(0, 50), rng.range(1, 400)),
        ];
        for (by, ahead) in steps {
            let poll = rng.percent(30);
            let back = Back { by, ahead, poll };
            let about = match ahead {
                0 => format!("a stop with the clock {by} ms back"),
                _ => format!("a stop {ahead} ms ahead of a clock that is {by} ms back"),
            };
            let life = session(seed, number, Twist::ClockBack { call, back });
            trials.push(one_life(about, life));
        }
    }
    trials
}

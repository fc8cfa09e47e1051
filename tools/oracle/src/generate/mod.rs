//! Random lives. A life is run while it is made, so that most orders are valid or nearly so.

mod calls;
mod orders;
mod replies;
mod start;
mod times;

use crate::history::History;
use crate::life::{Call, Counter, Life, Order, Step};
use crate::prng::Prng;
use crate::run::{Options, Readings, Runner};

/// What a life lays weight on; picked at random for each life.
#[derive(Clone, Copy, Debug, PartialEq, Eq)]
pub enum Style {
    /// Some of everything.
    Mixed,
    /// Starts that are refused.
    Refused,
    /// Long, with small steps of time, so that it stays Armed.
    Steady,
    /// As `Steady`, with nothing made wrong, so that a full ring often holds no rejection.
    Clean,
    /// Many rejections and a small limit for them.
    Storm,
    /// Times at and around the limits.
    Edges,
    /// A driver that often fails.
    Failing,
    /// Times in the last seconds of u64.
    Top,
    /// Counters set near the top of u64; only in the build with `counters`.
    Counters,
}

/// How often, in percent, something is done to a call.
#[derive(Clone, Copy)]
struct Emphasis {
    /// An argument is made wrong.
    spoil: u64,
    /// The driver fails or an observation does not verify.
    fail: u64,
    /// The time is at a limit.
    edge: u64,
    /// The time goes back or leaps.
    wild: u64,
}

impl Style {
    /// Long lives in which little goes wrong.
    const fn is_calm(self) -> bool {
        matches!(self, Self::Steady | Self::Clean)
    }

    const fn emphasis(self) -> Emphasis {
        let (spoil, fail, edge, wild) = match self {
            Self::Mixed | Self::Refused | Self::Counters => (35, 10, 15, 4),
            Self::Steady => (12, 0, 0, 0),
            Self::Clean => (0, 0, 0, 0),
            Self::Storm => (80, 8, 5, 1),
            Self::Edges => (15, 4, 70, 2),
            Self::Failing => (18, 50, 10, 2),
            Self::Top => (35, 5, 20, 3),
        };
        Emphasis {
            spoil,
            fail,
            edge,
            wild,
        }
    }
}

/// Makes the lives of a seed, each from its number alone.
#[derive(Clone, Copy, Debug)]
pub struct Generator {
    pub seed: u64,
    /// The most calls of a usual life; long ones have three to five times as many.
    pub calls: u64,
    /// Lives that set counters too. The lives of `false` are the same in both builds.
    pub counters: bool,
}

impl Generator {
    pub const DEFAULT_CALLS: u64 = 40;

    pub fn new(seed: u64) -> Self {
        Self {
            seed,
            calls: Self::DEFAULT_CALLS,
            counters: crate::HAS_COUNTERS,
        }
    }

    pub fn life(&self, index: u64) -> Life {
        let mut rng = Prng::new(self.seed, index);
        let style = self.style(&mut rng);
        let start = start::start(&mut rng, style);
        let (trace, runner) = Runner::start(&start, Options::default());
        let steps = match (runner, trace.answer) {
            (Some(runner), Ok(readings)) => {
                let mut maker = Maker::new(rng, style, runner, readings);
                let calls = self.length(&mut maker.rng, style);
                (0..calls).map(|_| maker.step()).collect()
            }
            _ => blind_steps(&mut rng, start.now),
        };
        Life { start, steps }
    }

    pub fn style(&self, rng: &mut Prng) -> Style {
        let style = rng.weighted([
            (22, Style::Mixed),
            (12, Style::Refused),
            (8, Style::Steady),
            (4, Style::Clean),
            (8, Style::Storm),
            (14, Style::Edges),
            (14, Style::Failing),
            (9, Style::Top),
            (9, Style::Counters),
        ]);
        match style {
            Style::Counters if !self.counters || !crate::HAS_COUNTERS => Style::Mixed,
            _ => style,
        }
    }

    fn length(&self, rng: &mut Prng, style: Style) -> u64 {
        if style.is_calm() {
            let calls = self.calls.saturating_mul(3);
            return rng.range(calls, self.calls.saturating_mul(5));
        }
        rng.range(1, self.calls.max(1))
    }
}

/// A few calls after a start that is refused: there is no runtime to look at.
fn blind_steps(rng: &mut Prng, now: u64) -> Vec<Step> {
    let calls = [
        Call::Tick { now },
        Call::UpdateState { flags: 0, now },
        Call::RecoverLocal { now },
    ];
    let count = rng.index(calls.len());
    let steps = calls.into_iter().take(count);
    steps
        .map(|call| Step {
            replies: Vec::new(),
            call,
        })
        .collect()
}

/// A life in the making.
struct Maker {
    rng: Prng,
    style: Style,
    emphasis: Emphasis,
    runner: Runner,
    readings: Readings,
    history: History,
    next_action: u64,
    last_order: Option<Order>,
    counters_left: Vec<Counter>,
}

impl Maker {
    fn new(rng: Prng, style: Style, runner: Runner, readings: Readings) -> Self {
        let counters: &[Counter] = match style {
            Style::Counters => &Counter::EXHAUSTIBLE,
            _ => &[],
        };
        Self {
            rng,
            style,
            emphasis: style.emphasis(),
            runner,
            readings,
            history: History::default(),
            next_action: 1,
            last_order: None,
            counters_left: counters.to_vec(),
        }
    }

    fn step(&mut self) -> Step {
        let call = self.set().or_else(|| self.order_at_the_top());
        let call = call.unwrap_or_else(|| self.call());
        let step = Step {
            replies: self.replies(&call),
            call,
        };
        let trace = self.runner.call(&step);
        self.history.learn(&trace);
        if let Call::Submit(order) = call {
            self.last_order = Some(order);
        }
        self.readings = trace.after;
        step
    }

    /// Each counter is set at most once, so that none ever comes down from the top.
    fn set(&mut self) -> Option<Call> {
        // One receipt before the top, and a fallback is due ahead of an order.
        let ready =
            self.counters_left.contains(&Counter::NextReceipt) && self.first_end().is_some();
        if self.counters_left.is_empty() || !self.rng.percent(if ready { 40 } else { 6 }) {
            return None;
        }
        let index = self.rng.index(self.counters_left.len());
        let counter = if ready {
            Counter::NextReceipt
        } else {
            self.counters_left[index]
        };
        self.counters_left.retain(|left| *left != counter);
        let below = if ready { 1 } else { self.rng.below(4) };
        Some(Call::Set {
            counter,
            value: u64::MAX - below,
        })
    }

    /// An order whose opening tick writes the last receipt below the top.
    fn order_at_the_top(&mut self) -> Option<Call> {
        let next = self.readings.snapshot.next_receipt_id;
        if next != u64::MAX - 1 || !self.rng.percent(90) {
            return None;
        }
        let end = self.first_end()?;
        Some(self.valid_order(end))
    }

    fn spoils(&mut self) -> bool {
        self.rng.percent(self.emphasis.spoil)
    }

    /// A number one off, below or above.
    fn one_off(&mut self, value: u64) -> u64 {
        if self.rng.percent(50) {
            value.wrapping_add(1)
        } else {
            value.wrapping_sub(1)
        }
    }
}

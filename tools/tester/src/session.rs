//! A session at the stage: the PC and the front panel both take leases, give orders, and go on
//! after whatever happens. It is made on the Rust, call by call, so that orders are up to date.
//! One twist can be put into it: a failing driver, a counter near the top, or a clock that steps
//! back inside an emergency stop.

use oracle::driver::Replied;
use oracle::life::{Call, Counter, Life, Order, Renewal, Reply, Start, Step};
use oracle::prng::Prng;
use oracle::run::{CallTrace, ItemTrace, Options, Readings, Runner};
use oracle::runtime_core::profile::{ARM_MOVING, CAPABILITIES, OBSTACLE};
use oracle::runtime_core::{
    Action, Bounds, Capability, Config, ExecutionClass, Lease, LeaseRequest, Observation,
    RuntimeState, Verification,
};

pub const PC: u64 = 7;
pub const PANEL: u64 = 9;

/// The times that a session begins at; the clock can step back from them.
const FIRST_TIMES: (u64, u64) = (500, 900);

/// How many calls a session has, and how many follow a twist at least.
const CALLS: (u64, u64) = (12, 20);
const CALLS_AFTER: usize = 10;

/// How long flags are taken for fresh, in the default configuration's 250 ms.
const FRESH_MS: u64 = 150;

/// More replies than a call uses.
const ENOUGH: usize = 64;

#[derive(Clone, Copy, Debug, PartialEq, Eq)]
pub enum Twist {
    None,
    /// From the reply of this number on (over the whole life, records left out), so many fail.
    Failing {
        from: u64,
        count: u64,
    },
    /// Before the call of this number a counter is set so far below the top.
    Counter {
        call: usize,
        counter: Counter,
        below: u64,
    },
    /// In place of the call of this number comes a stop, and the clock steps back.
    ClockBack {
        call: usize,
        back: Back,
    },
}

/// How a clock steps back inside a stop.
#[derive(Clone, Copy, Debug, Default, PartialEq, Eq)]
pub struct Back {
    /// So many milliseconds.
    pub by: u64,
    /// The stop itself has a time that is so much later than the clock after it.
    pub ahead: u64,
    /// The stop is a raise that a poll sees.
    pub poll: bool,
}

/// A session as a life. The same seed and number give the same calls up to the twist.
pub fn session(seed: u64, number: u64, twist: Twist) -> Life {
    let mut rng = Prng::new(seed, number);
    let start = Start {
        config: Config::default(),
        capabilities: capabilities(&mut rng),
        replies: Vec::new(),
        boot_id: rng.range(1, 1 << 40),
        now: rng.range(FIRST_TIMES.0, FIRST_TIMES.1),
        flags: 0,
    };
    Session::run(start, rng, twist)
}

/// The reference profile, in one session of three with a third axis.
fn capabilities(rng: &mut Prng) -> Vec<Capability> {
    let mut list = CAPABILITIES.to_vec();
    if rng.below(3) == 0 {
        list.push(Capability {
            id: 9,
            resource: 5,
            class: ExecutionClass::Stream,
            parameter_count: 1,
            bounds: [
                Bounds {
                    min: 0,
                    max: 40_000,
                },
                Bounds::ZERO,
            ],
            require_set: 0,
            require_clear: 0,
            verification: Verification::Parameters,
        });
    }
    list
}

struct Session {
    rng: Prng,
    twist: Twist,
    runner: Option<Runner>,
    life: Life,
    now: u64,
    /// Replies used up so far.
    replies: u64,
    /// Numbers given to orders, renewals and raises.
    given: u64,
    orders: Vec<Order>,
    /// The clock was set back, and has not caught up yet.
    behind: bool,
}

impl Session {
    fn run(mut start: Start, mut rng: Prng, twist: Twist) -> Life {
        let calls = rng.range(CALLS.0, CALLS.1) as usize;
        start.replies = failing(&[], twist, 0);
        let (trace, runner) = Runner::start(&start, Options::default());
        start.replies.truncate(used(&trace.items));
        calm(&mut start.replies);
        let mut session = Self {
            rng,
            twist,
            runner,
            now: start.now,
            replies: used(&trace.items) as u64,
            life: Life {
                start,
                steps: Vec::new(),
            },
            given: 0,
            orders: Vec::new(),
            behind: false,
        };
        let last = match twist {
            Twist::Counter { call, .. } | Twist::ClockBack { call, .. } => call + CALLS_AFTER,
            _ => 0,
        };
        (0..calls.max(last)).for_each(|n| session.turn(n));
        session.life
    }

    /// The call of this number, or what the twist puts in its place.
    fn turn(&mut self, n: usize) {
        match self.twist {
            Twist::Counter {
                call,
                counter,
                below,
            } if call == n => {
                let value = u64::MAX - below;
                self.call(Call::Set { counter, value }, &[]);
            }
            Twist::ClockBack { call, back } if call == n => return self.stop(back),
            _ => {}
        }
        let Some(readings) = self.runner.as_ref().map(Runner::readings) else {
            self.pass(30);
            let now = self.now;
            return self.call(Call::Tick { now }, &[]);
        };
        if self.behind && self.rng.percent(25) {
            self.now = readings.snapshot.now;
            self.behind = false;
        }
        self.pass(35);
        self.act(&readings);
    }

    fn pass(&mut self, most: u64) {
        self.now += self.rng.range(0, most);
    }

    /// An emergency stop; the clock goes on from where it steps back to.
    fn stop(&mut self, Back { by, ahead, poll }: Back) {
        self.now = self.now.saturating_sub(by);
        self.behind = by + ahead > 0;
        let now = self.now + ahead;
        self.given += 1;
        let raised = self.given as u32;
        let stop = if poll {
            Call::PollEstop { raised, now }
        } else {
            Call::EmergencyStop { now }
        };
        self.call(stop, &[]);
    }

    /// What the people at the stage do next.
    fn act(&mut self, readings: &Readings) {
        let none_held = readings.snapshot.active_leases == 0;
        match readings.state {
            RuntimeState::Faulted | RuntimeState::Estopped => self.recover(readings),
            _ if self.now.saturating_sub(readings.snapshot.sensor_tick) >= FRESH_MS => {
                self.flags(readings.flags);
            }
            _ => match self.free_axis(readings) {
                Some(axis) if none_held || self.rng.percent(85) => self.acquire(axis),
                _ => self.work(readings),
            },
        }
    }

    /// An order again that may have been lost, then the way out of a trip.
    fn recover(&mut self, readings: &Readings) {
        let now = self.now;
        let stale = now.saturating_sub(readings.snapshot.sensor_tick) >= FRESH_MS;
        match self.rng.below(8) {
            0 | 1 if !self.orders.is_empty() => self.again(),
            2 => self.acquire(0),
            _ if readings.flags & 1 != 0 || stale => self.flags(0),
            _ => self.call(Call::RecoverLocal { now }, &[]),
        }
    }

    /// A used axis without a lease, the lowest first.
    fn free_axis(&self, readings: &Readings) -> Option<u8> {
        let mut axes = self.life.start.capabilities.iter().map(|c| c.resource);
        axes.find(|axis| readings.leases[usize::from(*axis)].is_none())
    }

    fn work(&mut self, readings: &Readings) {
        let leases: Vec<Lease> = readings.leases.iter().flatten().copied().collect();
        let now = self.now;
        let Some(lease) = self.rng.pick(&leases) else {
            return self.call(Call::Tick { now }, &[]);
        };
        match self.rng.below(100) {
            0..50 => self.order(&lease, readings),
            50..58 => self.again(),
            58..66 => self.call(Call::Tick { now }, &[]),
            66..74 => self.renew(&lease),
            74..82 => self.flags(readings.flags),
            82..86 => {
                let flags = self.rng.one_of([0, OBSTACLE, ARM_MOVING]);
                self.flags(flags);
            }
            86..90 => self.cancel(&lease),
            90..95 => {
                let poll = self.rng.percent(40);
                self.stop(Back {
                    poll,
                    ..Back::default()
                });
            }
            95..97 => {
                self.now += 60;
                self.call(Call::Tick { now: self.now }, &[]);
            }
            _ => self.others_order(&lease, readings),
        }
    }

    fn flags(&mut self, flags: u32) {
        let now = self.now;
        self.call(Call::UpdateState { flags, now }, &[]);
    }

    /// The PC has the even axes, the panel the others.
    fn acquire(&mut self, axis: u8) {
        let of_axis = |c: &&Capability| c.resource == axis;
        let listed = self.life.start.capabilities.iter().filter(of_axis);
        let capabilities = listed.fold(0, |mask, c| mask | 1 << c.id);
        let request = LeaseRequest {
            owner: if axis.is_multiple_of(2) { PC } else { PANEL },
            resource: axis,
            capabilities,
            duration_ms: self.rng.one_of([120, 400, 2000]),
            limits: [Bounds::ANY; 2],
        };
        let now = self.now;
        self.call(Call::Acquire { request, now }, &[]);
    }

    fn renew(&mut self, lease: &Lease) {
        self.given += 1;
        let renewal = Renewal {
            owner: lease.owner,
            lease_id: lease.id,
            renewal: self.given,
            duration_ms: self.rng.one_of([60, 500, 2000]),
            now: self.now,
        };
        self.call(Call::Renew(renewal), &[]);
    }

    fn cancel(&mut self, lease: &Lease) {
        let cancel = Call::Cancel {
            owner: lease.owner,
            lease_id: lease.id,
            now: self.now,
        };
        self.call(cancel, &[]);
    }

    /// An order that is carried out if the driver does its part.
    fn order(&mut self, lease: &Lease, readings: &Readings) {
        let listed = self.life.start.capabilities.iter();
        let of_axis: Vec<Capability> = listed
            .filter(|c| c.resource == lease.resource)
            .copied()
            .collect();
        let Some(capability) = self.rng.pick(&of_axis) else {
            return;
        };
        self.given += 1;
        let order = Order {
            action: Action {
                boot_id: self.life.start.boot_id,
                requester: lease.owner,
                lease_id: lease.id,
                action_id: self.given,
                sequence: self.given,
                capability: capability.id,
                based_on_epoch: readings.epoch,
                execute_after: 0,
                deadline: self.now + 200,
                valid_for_ms: self.rng.one_of([40, 120, 300]),
                parameters: capability.bounds.map(|b| self.inside(b)),
            },
            principal: lease.owner,
            received_at: self.now,
            now: self.now,
        };
        self.orders.push(order);
        self.submit(order);
    }

    fn inside(&mut self, bounds: Bounds) -> i32 {
        let span = i64::from(bounds.max) - i64::from(bounds.min);
        let above = self.rng.range(0, span.unsigned_abs()) as i64;
        (i64::from(bounds.min) + above) as i32
    }

    /// The other one of the two sends an order under a lease that is not theirs.
    fn others_order(&mut self, lease: &Lease, readings: &Readings) {
        let thief = Lease {
            owner: if lease.owner == PC { PANEL } else { PC },
            ..*lease
        };
        self.order(&thief, readings);
    }

    /// An earlier order once more, all eleven fields alike.
    fn again(&mut self) {
        if let Some(order) = self.rng.pick(&self.orders) {
            self.submit(Order {
                received_at: self.now,
                now: self.now,
                ..order
            });
        }
    }

    fn submit(&mut self, order: Order) {
        let capabilities = &self.life.start.capabilities;
        let capability = capabilities
            .iter()
            .find(|c| c.id == order.action.capability);
        let state = match capability.map(|c| c.verification) {
            Some(Verification::State { value, .. }) => value,
            _ => 0,
        };
        let seen = Reply::See(Observation {
            parameters: order.action.parameters,
            state,
        });
        self.call(Call::Submit(order), &[Reply::Ok, Reply::Ok, seen]);
    }

    /// Makes the call with these replies, and keeps those that it used.
    fn call(&mut self, call: Call, replies: &[Reply]) {
        let replies = failing(replies, self.twist, self.replies);
        let mut step = Step { replies, call };
        if let Some(runner) = &mut self.runner {
            let CallTrace { items, .. } = runner.call(&step);
            step.replies.truncate(used(&items));
            self.replies += used(&items) as u64;
        }
        calm(&mut step.replies);
        self.life.steps.push(step);
    }
}

/// How many replies the items used up.
fn used(items: &[ItemTrace]) -> usize {
    let asks = |trace: &&ItemTrace| trace.replied != Replied::Recorded;
    items.iter().filter(asks).count()
}

/// The replies of a call, some of them made to fail; `before` were used up before it.
fn failing(replies: &[Reply], twist: Twist, before: u64) -> Vec<Reply> {
    let mut replies = replies.to_vec();
    if let Twist::Failing { from, count } = twist {
        replies.resize(ENOUGH, Reply::Ok);
        let fails = |n: u64| n >= from && n - from < count;
        for (n, reply) in replies.iter_mut().enumerate() {
            if fails(before + n as u64) {
                *reply = Reply::Fail;
            }
        }
    }
    replies
}

/// Leaves out what stands for itself: a script that is used up replies `ok`.
fn calm(replies: &mut Vec<Reply>) {
    while replies.last() == Some(&Reply::Ok) {
        replies.pop();
    }
}

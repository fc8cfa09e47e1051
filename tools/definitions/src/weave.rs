//! Puts inputs out of place and readings into a life, each with what 01 demands of it.

use crate::turns::{Event, Input, Moment, Output, Place, Reading, Reply};
use oracle::driver::Item;
use oracle::life::{Call, Counter, Order, Renewal};
use oracle::prng::Prng;
use oracle::runtime_core::{Action, Bounds, LeaseRequest, Observation};

pub const REPLY_AWAITED: u16 = 111;
pub const NO_REPLY_AWAITED: u16 = 112;
pub const OTHER_REPLY_AWAITED: u16 = 113;

/// One input with the output that it must have.
#[derive(Clone, Copy, Debug, PartialEq, Eq)]
pub struct Turn {
    pub input: Input,
    pub output: Output,
    /// Put in here: a reading or an input out of place.
    pub woven: bool,
    /// Whether a reply is awaited when the input comes.
    pub in_wait: bool,
}

/// A counter and the number that it is set to.
pub type Set = (Counter, u64);

/// A life's inputs and the outputs that they must have.
#[derive(Clone, Debug, PartialEq, Eq)]
pub struct Script {
    /// What comes out of the start.
    pub start: Output,
    /// What follows the start.
    pub first: Vec<Turn>,
    /// What follows each counter that is set.
    pub rest: Vec<(Set, Vec<Turn>)>,
}

impl Script {
    pub fn turns(&self) -> impl Iterator<Item = &Turn> {
        let rest = self.rest.iter().flat_map(|(_, turns)| turns);
        self.first.iter().chain(rest)
    }

    /// All outputs, that of the start first.
    pub fn outputs(&self) -> impl Iterator<Item = Output> + '_ {
        let start = std::iter::once(self.start);
        start.chain(self.turns().map(|turn| turn.output))
    }

    /// The inputs that come last.
    fn last(&mut self) -> &mut Vec<Turn> {
        let last = self.rest.last_mut().map(|(_, turns)| turns);
        last.unwrap_or(&mut self.first)
    }
}

/// The life as it is, with nothing put in.
pub fn plain(moments: &[Moment<'_>]) -> Script {
    weave_with(moments, |_, _| {})
}

/// The life with inputs out of place and readings at random places, and every kind of them at
/// its end. `calls` are its own calls.
pub fn weave(moments: &[Moment<'_>], calls: &[Call], rng: &mut Prng) -> Script {
    let mut script = weave_with(moments, |place, turns| {
        let count = match place.awaited {
            Some(_) => rng.weighted([(40, 0), (30, 1), (20, 2), (10, 3)]),
            None => rng.weighted([(55, 0), (25, 1), (15, 2), (5, 3)]),
        };
        turns.extend((0..count).map(|_| stray(place, calls, rng)));
    });
    if let Some(moment) = moments.last() {
        script.last().extend(every_stray(&moment.place, rng));
    }
    script
}

/// `after` adds what comes after a moment.
fn weave_with(moments: &[Moment<'_>], mut after: impl FnMut(&Place<'_>, &mut Vec<Turn>)) -> Script {
    let mut script = Script {
        start: Output::NoRuntime,
        first: Vec::new(),
        rest: Vec::new(),
    };
    let mut in_wait = false;
    for moment in moments {
        match moment.event {
            Event::Start(output) => script.start = output,
            Event::Set(counter, value) => {
                script.rest.push(((counter, value), Vec::new()));
            }
            Event::Input(input, output) => script.last().push(Turn {
                input,
                output,
                woven: false,
                in_wait,
            }),
        }
        in_wait = moment.place.awaited.is_some();
        after(&moment.place, script.last());
    }
    script
}

/// A reading, or an input that is refused there.
fn stray(place: &Place<'_>, calls: &[Call], rng: &mut Prng) -> Turn {
    if rng.percent(50) {
        return reads(a_reading(place, rng), place);
    }
    let call = a_call(calls, rng);
    let reply = a_reply(rng.index(4), rng);
    let refused = [refused_call(call, place), refused_reply(reply, place)];
    let refused: Vec<Turn> = refused.into_iter().flatten().collect();
    let picked = rng.pick(&refused);
    picked.unwrap_or_else(|| reads(a_reading(place, rng), place))
}

/// Every call and every kind of reply that is refused there, and every reading.
fn every_stray(place: &Place<'_>, rng: &mut Prng) -> Vec<Turn> {
    let calls: Vec<Call> = (0..9).map(|kind| another_call(kind, rng)).collect();
    let replies: Vec<Reply> = (0..4).map(|kind| a_reply(kind, rng)).collect();
    let calls = calls.into_iter().filter_map(|c| refused_call(c, place));
    let replies = replies.into_iter().filter_map(|r| refused_reply(r, place));
    let readings = every_reading(place).into_iter().map(|r| reads(r, place));
    calls.chain(replies).chain(readings).collect()
}

/// None where the call would take effect.
fn refused_call(call: Call, place: &Place<'_>) -> Option<Turn> {
    let output = match (place.awaited, place.readings) {
        (Some(item), _) => Output::Reminds(REPLY_AWAITED, item),
        (None, None) => Output::NoRuntime,
        (None, Some(_)) => return None,
    };
    Some(woven(Input::Calls(call), output, place))
}

/// None where the reply is of the awaited kind.
fn refused_reply(reply: Reply, place: &Place<'_>) -> Option<Turn> {
    let output = match place.awaited {
        Some(item) if fits(&reply, &item) => return None,
        Some(item) => Output::Reminds(OTHER_REPLY_AWAITED, item),
        None => Output::Refuses(NO_REPLY_AWAITED),
    };
    Some(woven(Input::Replies(reply), output, place))
}

const fn fits(reply: &Reply, item: &Item) -> bool {
    matches!(
        (reply, item),
        (Reply::Observed(_), Item::Observe { .. })
            | (Reply::Executed(_), Item::Execute { .. })
            | (Reply::FellBack(_), Item::Fallback { .. })
            | (Reply::Recorded, Item::Record { .. })
    )
}

fn woven(input: Input, output: Output, place: &Place<'_>) -> Turn {
    Turn {
        input,
        output,
        woven: true,
        in_wait: place.awaited.is_some(),
    }
}

fn reads(reading: Reading, place: &Place<'_>) -> Turn {
    let shown = place.readings.map(|r| Output::Shows(reading.of(r)));
    let output = shown.unwrap_or(Output::NoRuntime);
    woven(Input::Reads(reading), output, place)
}

fn a_reading(place: &Place<'_>, rng: &mut Prng) -> Reading {
    let receipts = place.readings.map_or(0, |r| r.receipts.len() as u64);
    let capabilities = place.readings.map_or(0, |r| r.capabilities.len() as u64);
    // Most of what a wait shows is in the lease of its axis.
    if let (Some(axis), true) = (awaited_axis(place), rng.percent(50)) {
        return Reading::Lease(axis.into());
    }
    match rng.below(14) {
        0 => Reading::State,
        1 => Reading::Epoch,
        2 => Reading::BootId,
        3 => Reading::Flags,
        4 => Reading::ReceiptCount,
        5 => Reading::Config,
        6 | 7 => Reading::Snapshot,
        8..11 => Reading::Lease(rng.range(0, 8)),
        11 => Reading::Capability(rng.range(0, capabilities)),
        // The newest one more often.
        12 => Reading::Receipt(receipts.saturating_sub(1)),
        _ => Reading::Receipt(rng.range(0, receipts)),
    }
}

/// The axis that the awaited item is about.
fn awaited_axis(place: &Place<'_>) -> Option<u8> {
    match place.awaited? {
        Item::Observe { resource } | Item::Fallback { resource, .. } => Some(resource),
        Item::Record { receipt } => Some(receipt.resource),
        Item::Execute { capability, .. } => {
            let mut table = place.readings?.capabilities.iter();
            table.find(|c| c.id == capability).map(|c| c.resource)
        }
    }
}

/// Every kind of reading, at every axis and every receipt, and past the ends.
fn every_reading(place: &Place<'_>) -> Vec<Reading> {
    let mut all = vec![
        Reading::State,
        Reading::Epoch,
        Reading::BootId,
        Reading::Flags,
        Reading::ReceiptCount,
        Reading::Config,
        Reading::Snapshot,
    ];
    all.extend((0..=8).map(Reading::Lease));
    all.push(Reading::Lease(u8::MAX.into()));
    let capabilities = place.readings.map_or(0, |r| r.capabilities.len() as u64);
    let receipts = place.readings.map_or(0, |r| r.receipts.len() as u64);
    let mut indexes = vec![0, capabilities / 2, capabilities.saturating_sub(1)];
    indexes.extend([capabilities, 16, u64::MAX]);
    indexes.dedup();
    all.extend(indexes.into_iter().map(Reading::Capability));
    all.extend((0..=receipts).map(Reading::Receipt));
    all.push(Reading::Receipt(u64::MAX));
    all
}

pub fn a_reply(kind: usize, rng: &mut Prng) -> Reply {
    let good = rng.percent(50);
    let seen = Observation {
        parameters: [rng.draw() as i32, rng.one_of([0, i32::MIN, i32::MAX])],
        state: rng.draw() as u32,
    };
    match kind {
        0 => Reply::Observed(good.then_some(seen)),
        1 => Reply::Executed(good),
        2 => Reply::FellBack(good),
        _ => Reply::Recorded,
    }
}

/// A call of the life itself, or any other.
fn a_call(calls: &[Call], rng: &mut Prng) -> Call {
    let made = rng.pick(calls).filter(|_| rng.percent(50));
    let kind = rng.below(9);
    made.unwrap_or_else(|| another_call(kind, rng))
}

pub fn another_call(kind: u64, rng: &mut Prng) -> Call {
    let now = rng.one_of([0, 1, 1000, u64::MAX]);
    let (owner, lease_id) = (rng.range(0, 8), rng.range(0, 3));
    match kind {
        0 => Call::Tick { now },
        1 => Call::UpdateState {
            flags: rng.draw() as u32,
            now,
        },
        2 => Call::EmergencyStop { now },
        3 => Call::PollEstop {
            raised: rng.draw() as u32,
            now,
        },
        4 => Call::RecoverLocal { now },
        5 => Call::Acquire {
            request: a_request(owner, rng),
            now,
        },
        6 => Call::Renew(Renewal {
            owner,
            lease_id,
            renewal: rng.draw(),
            duration_ms: rng.range(0, 3000) as u32,
            now,
        }),
        7 => Call::Cancel {
            owner,
            lease_id,
            now,
        },
        _ => Call::Submit(an_order(owner, lease_id, now, rng)),
    }
}

fn a_request(owner: u64, rng: &mut Prng) -> LeaseRequest {
    LeaseRequest {
        owner,
        resource: rng.draw() as u8,
        capabilities: rng.draw(),
        duration_ms: rng.range(0, 3000) as u32,
        limits: [Bounds::ANY, Bounds::ZERO],
    }
}

fn an_order(owner: u64, lease_id: u64, now: u64, rng: &mut Prng) -> Order {
    Order {
        action: Action {
            boot_id: 42,
            requester: owner,
            lease_id,
            action_id: rng.range(0, 5),
            sequence: rng.range(0, 5),
            capability: rng.range(0, 5) as u16,
            based_on_epoch: rng.range(0, 5),
            execute_after: 0,
            deadline: u64::MAX,
            valid_for_ms: rng.range(0, 1000) as u32,
            parameters: [rng.draw() as i32, 0],
        },
        principal: owner,
        received_at: now,
        now,
    }
}

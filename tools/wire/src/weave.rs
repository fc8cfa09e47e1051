//! What is put into a life: readings, inputs out of place, malformed records, and the
//! capabilities of the next life. Each leaves the life as it was.

use crate::format::layout::InputKind;
use crate::format::{Input, InputWords, Output, INPUT_WORDS};
use crate::malformed;
use crate::turn::{At, Sink, Turn};
use definitions::turns::{Reading, Reply};
use definitions::weave::{a_reply, another_call, OTHER_REPLY_AWAITED, REPLY_AWAITED};
use oracle::driver::Item;
use oracle::life::{Call, Step};
use oracle::prng::Prng;
use oracle::runtime_core::{Capability, Runtime, MAX_CAPABILITIES, MAX_RESOURCES};

/// How much is put into a life.
#[derive(Clone, Copy, Debug, PartialEq, Eq)]
pub enum Amount {
    Nothing,
    /// A snapshot after the start and after each call.
    Snapshots,
    /// Every reading and every refused input where it ends.
    End,
    /// Here and there, and everything where it ends.
    Few,
    /// More than that.
    Many,
    /// Everything everywhere.
    Everything,
    /// Every malformed record everywhere.
    Malformed,
}

/// How often, in percent, something is put in.
struct Rates {
    /// Calls whose waits are read.
    looks: u64,
    /// Places with something; it is asked again after each one.
    strays: u64,
}

impl Amount {
    const fn rates(self) -> Rates {
        let (looks, strays) = match self {
            Self::Nothing | Self::Snapshots | Self::End | Self::Malformed => (0, 0),
            Self::Few => (4, 10),
            Self::Many => (40, 50),
            Self::Everything => (100, 0),
        };
        Rates { looks, strays }
    }
}

/// What there is to read.
#[derive(Clone, Copy)]
pub enum Sight<'a> {
    /// No runtime.
    Nothing,
    /// A wait that is not looked at.
    Closed,
    Of(&'a Runtime),
}

/// Where a moment leaves the runtime.
#[derive(Clone, Copy)]
pub struct Place<'a> {
    /// The item whose reply is awaited.
    pub awaited: Option<Item>,
    pub sight: Sight<'a>,
}

impl Place<'_> {
    fn at(&self) -> At {
        match (self.awaited, self.sight) {
            (Some(_), Sight::Nothing) => At::Starting,
            (Some(_), _) => At::Waiting,
            (None, Sight::Nothing) => At::Nowhere,
            (None, _) => At::Idle,
        }
    }

    fn woven(&self, input: Input, output: Output) -> Turn {
        Turn {
            input,
            output,
            at: self.at(),
            woven: true,
            unread: 0,
        }
    }

    /// None where the call would take effect.
    fn called(&self, call: Call) -> Option<Turn> {
        let output = match (self.awaited, self.sight) {
            (Some(item), _) => Output::Item(REPLY_AWAITED, item),
            (None, Sight::Nothing) => Output::NoRuntime,
            (None, _) => return None,
        };
        Some(self.woven(Input::Call(call), output))
    }

    /// None where the reply is of the awaited kind.
    fn replied(&self, kind: usize, reply: Reply) -> Option<Turn> {
        let output = match self.awaited {
            Some(item) if reply_kind(&item) == kind => return None,
            Some(item) => Output::Item(OTHER_REPLY_AWAITED, item),
            None => Output::Unawaited,
        };
        Some(self.woven(Input::Reply(reply), output))
    }

    /// None in a wait that is not looked at.
    fn read(&self, reading: Reading) -> Option<Turn> {
        let output = match self.sight {
            Sight::Nothing => Output::NoRuntime,
            Sight::Closed => return None,
            Sight::Of(runtime) => read(runtime, reading),
        };
        Some(self.woven(Input::Read(reading), output))
    }

    fn malformed(&self, words: InputWords) -> Turn {
        self.woven(Input::Malformed(words), Output::Malformed)
    }

    /// How many capabilities and receipts there are.
    fn sizes(&self) -> (u64, u64) {
        match self.sight {
            Sight::Of(r) => (r.capabilities().count() as u64, r.receipt_count() as u64),
            _ => (0, 0),
        }
    }
}

/// How many kinds of replies there are, and which one an item asks for, as `a_reply` counts them.
const REPLY_KINDS: usize = 4;

const fn reply_kind(item: &Item) -> usize {
    match item {
        Item::Observe { .. } => 0,
        Item::Execute { .. } => 1,
        Item::Fallback { .. } => 2,
        Item::Record { .. } => 3,
    }
}

/// What the Rust shows.
pub fn read(runtime: &Runtime, reading: Reading) -> Output {
    let place = |index: u64| usize::try_from(index).ok();
    match reading {
        Reading::State => Output::State(runtime.state()),
        Reading::Epoch => Output::Number(runtime.epoch()),
        Reading::BootId => Output::Number(runtime.boot_id()),
        Reading::Flags => Output::Number(runtime.flags().into()),
        Reading::ReceiptCount => Output::Number(runtime.receipt_count() as u64),
        Reading::Config => Output::config(&runtime.config()),
        Reading::Snapshot => Output::Snapshot(runtime.snapshot()),
        Reading::Lease(axis) => {
            let axis = u8::try_from(axis).ok();
            Output::Lease(axis.and_then(|axis| runtime.lease(axis)))
        }
        Reading::Capability(index) => {
            let found = place(index).and_then(|n| runtime.capabilities().nth(n));
            Output::Capability(found.copied())
        }
        Reading::Receipt(index) => Output::Receipt(place(index).and_then(|n| runtime.receipt(n))),
    }
}

/// The readings without an argument.
pub fn plain_readings() -> impl Iterator<Item = Reading> {
    let readings = InputKind::ALL
        .iter()
        .filter(|kind| kind.fields().is_empty());
    readings.filter_map(|kind| {
        let mut words = [0; INPUT_WORDS];
        words[0] = kind.number();
        match Input::of(&words) {
            Input::Read(reading) => Some(reading),
            _ => None,
        }
    })
}

/// Puts something into one life.
pub struct Weaver<'a> {
    amount: Amount,
    rng: Prng,
    /// The calls of the life.
    steps: &'a [Step],
    /// The capabilities of the next life that are not listed yet.
    ahead: std::slice::Iter<'a, Capability>,
}

impl<'a> Weaver<'a> {
    pub fn new(amount: Amount, rng: Prng, steps: &'a [Step], ahead: &'a [Capability]) -> Self {
        Self {
            amount,
            rng,
            steps,
            ahead: ahead.iter(),
        }
    }

    /// Whether the waits of the next call are read.
    pub fn looks(&mut self) -> bool {
        self.rng.percent(self.amount.rates().looks)
    }

    /// What stands in the fields that are not read: anything, where all is random.
    pub fn unread(&mut self) -> u32 {
        match self.amount {
            Amount::Few | Amount::Many if self.rng.percent(50) => self.rng.draw() as u32,
            _ => 0,
        }
    }

    /// What comes after a moment.
    pub fn after(&mut self, place: &Place<'_>, sink: &mut impl Sink) {
        match self.amount {
            Amount::Nothing | Amount::End => {}
            Amount::Snapshots if place.awaited.is_some() => {}
            Amount::Snapshots => {
                let shown = place.read(Reading::Snapshot);
                shown.iter().for_each(|turn| sink.turn(turn));
            }
            Amount::Few | Amount::Many => self.some(place, sink),
            Amount::Everything => self.everything(place, sink),
            Amount::Malformed => {
                let all = malformed::all(oracle::HAS_COUNTERS);
                all.iter().for_each(|w| sink.turn(&place.malformed(*w)));
            }
        }
    }

    /// What comes where the life ends.
    pub fn end(&mut self, place: &Place<'_>, sink: &mut impl Sink) {
        if matches!(self.amount, Amount::End | Amount::Few | Amount::Many) {
            self.everything(place, sink);
        }
        while let Some(turn) = self.list_ahead(place) {
            sink.turn(&turn);
        }
    }

    fn some(&mut self, place: &Place<'_>, sink: &mut impl Sink) {
        if let (Some(item), Sight::Of(runtime)) = (place.awaited, place.sight) {
            let few = self.few(&item, runtime);
            let turns = few.into_iter().filter_map(|reading| place.read(reading));
            turns.for_each(|turn| sink.turn(&turn));
        }
        while self.rng.percent(self.amount.rates().strays) {
            sink.turn(&self.stray(place));
        }
    }

    /// The readings that show most of a wait.
    fn few(&mut self, item: &Item, runtime: &Runtime) -> [Reading; 4] {
        let newest = (runtime.receipt_count() as u64).saturating_sub(1);
        let axis = match item {
            Item::Observe { resource } | Item::Fallback { resource, .. } => *resource,
            Item::Record { receipt } => receipt.resource,
            Item::Execute { .. } => self.rng.below(MAX_RESOURCES as u64) as u8,
        };
        [
            Reading::Snapshot,
            Reading::Lease(axis.into()),
            Reading::Receipt(newest),
            Reading::Receipt(self.rng.range(0, newest)),
        ]
    }

    fn stray(&mut self, place: &Place<'_>) -> Turn {
        let stray = match self.rng.below(16) {
            0..8 => {
                let reading = self.a_reading(place);
                place.read(reading)
            }
            8 => self.list_ahead(place),
            9 => Some(self.a_malformed(place)),
            _ => None,
        };
        stray.unwrap_or_else(|| self.refused(place))
    }

    fn a_reading(&mut self, place: &Place<'_>) -> Reading {
        let (capabilities, receipts) = place.sizes();
        match self.rng.below(14) {
            0 => Reading::State,
            1 => Reading::Epoch,
            2 => Reading::BootId,
            3 => Reading::Flags,
            4 => Reading::ReceiptCount,
            5 => Reading::Config,
            6 | 7 => Reading::Snapshot,
            8..11 => Reading::Lease(self.rng.range(0, MAX_RESOURCES as u64)),
            11 => Reading::Capability(self.rng.range(0, capabilities)),
            // The newest one more often.
            12 => Reading::Receipt(receipts.saturating_sub(1)),
            _ => Reading::Receipt(self.rng.range(0, receipts)),
        }
    }

    /// An input that is refused there.
    fn refused(&mut self, place: &Place<'_>) -> Turn {
        let call = self.a_call();
        match place.called(call) {
            Some(turn) if self.rng.percent(50) => turn,
            _ => self.refused_reply(place),
        }
    }

    fn refused_reply(&mut self, place: &Place<'_>) -> Turn {
        let first = self.rng.index(REPLY_KINDS);
        let two = [first, (first + 1) % REPLY_KINDS];
        let mut replies = two.map(|kind| place.replied(kind, a_reply(kind, &mut self.rng)));
        let turn = replies.iter_mut().find_map(Option::take);
        let turn = turn.expect("at most one kind of reply is awaited");
        let unread = self.unread();
        Turn { unread, ..turn }
    }

    /// A call of the life itself, or any other.
    fn a_call(&mut self) -> Call {
        let step = self.steps.get(self.rng.index(self.steps.len()));
        let own = step.map(|s| s.call).filter(|call| call.now().is_some());
        match own {
            Some(call) if self.rng.percent(50) => call,
            _ => another_call(self.rng.below(CALL_KINDS), &mut self.rng),
        }
    }

    fn a_malformed(&mut self, place: &Place<'_>) -> Turn {
        let sound = match self.rng.below(3) {
            0 => Input::Call(self.a_call()),
            1 => Input::Reply(a_reply(self.rng.index(REPLY_KINDS), &mut self.rng)),
            _ => Input::Read(self.a_reading(place)),
        };
        let spoiled = malformed::spoiled(sound.words(), &mut self.rng);
        let words = spoiled.unwrap_or_else(|| malformed::unknown(&mut self.rng));
        place.malformed(words)
    }

    /// Lists the next capability of the next life, which needs it.
    fn list_ahead(&mut self, place: &Place<'_>) -> Option<Turn> {
        let capability = *self.ahead.next()?;
        let turn = place.woven(Input::Capability(capability), Output::Listed);
        Some(Turn {
            woven: false,
            ..turn
        })
    }

    /// Every call and every kind of reply that is refused there, and every reading.
    fn everything(&mut self, place: &Place<'_>, sink: &mut impl Sink) {
        for kind in 0..CALL_KINDS {
            let call = another_call(kind, &mut self.rng);
            place.called(call).iter().for_each(|turn| sink.turn(turn));
        }
        for kind in 0..REPLY_KINDS {
            let reply = a_reply(kind, &mut self.rng);
            place
                .replied(kind, reply)
                .iter()
                .for_each(|turn| sink.turn(turn));
        }
        let turns = every_reading(place).filter_map(|reading| place.read(reading));
        turns.for_each(|turn| sink.turn(&turn));
    }
}

/// How many calls there are, as `another_call` counts them.
const CALL_KINDS: u64 = 9;

/// Every kind of reading, at every axis and every receipt, and past the ends.
fn every_reading(place: &Place<'_>) -> impl Iterator<Item = Reading> {
    let (capabilities, receipts) = place.sizes();
    let axes = (0..=MAX_RESOURCES as u64).chain([u8::MAX.into()]);
    let last = capabilities.saturating_sub(1);
    let indexes = [
        0,
        capabilities / 2,
        last,
        capabilities,
        MAX_CAPABILITIES as u64,
        u64::MAX,
    ];
    plain_readings()
        .chain(axes.map(Reading::Lease))
        .chain(indexes.into_iter().map(Reading::Capability))
        .chain((0..=receipts).map(Reading::Receipt))
        .chain([Reading::Receipt(u64::MAX)])
}

//! Random lives and directed ones, each with what is to be proved of it.

use crate::choose::choose;
use crate::text;
use crate::turns::{moments, Event, Moment, Output, Place};
use crate::vary::vary;
use crate::weave::{plain, weave, Script};
use oracle::driver::Item;
use oracle::generate::Generator;
use oracle::life::{Call, Counter, Life};
use oracle::prng::Prng;
use oracle::run::{run_life, LifeTrace, Options};
use oracle::runtime_core::{Decision, Reason, RECEIPT_CAPACITY, REPLAY_CAPACITY};

/// One life in so many is long, and one brings a counter to the top.
pub const EVERY: u64 = 20;

/// The generator's calm lives have three to five times as many calls.
const LONG_CALLS: u64 = 30;

/// Lives that bring a counter to the top have at least as many calls.
const TOP_CALLS: u64 = 20;

/// In how many waits the whole book of a life is compared, besides its end.
const BOOKS: usize = 3;
const BOOKS_OF_A_LONG_LIFE: usize = 6;

/// What is to be proved of a life.
#[derive(Clone, Debug, PartialEq, Eq)]
pub struct Fact {
    /// How the names of its declarations end: the number of a random life, or `-` and the name of
    /// a directed one.
    pub label: String,
    pub life: Life,
    pub script: Script,
    /// The expected outputs as terms, that of the start first.
    pub outputs: Vec<String>,
    /// Whole books, the last one at the end of the history. None in the build without
    /// `counters`, which can't read what no reading shows.
    pub books: Vec<Seen>,
    pub reached: Reached,
}

/// The book at a moment of a life, as the Rust has it.
#[derive(Clone, Debug, PartialEq, Eq)]
pub struct Seen {
    /// The place of the output that came before.
    pub place: usize,
    pub awaited: Option<Item>,
    /// The fields of the book; none in a start and after a refused one.
    pub book: Option<[(&'static str, String); 16]>,
}

/// What a history comes to on the Rust.
#[derive(Clone, Copy, Debug, Default, PartialEq, Eq)]
pub struct Reached {
    pub admitted: usize,
    /// All that were written, those dropped since included.
    pub receipts: usize,
    /// It ends while a reply is awaited.
    pub cut: bool,
}

impl Reached {
    fn by(moments: &[Moment<'_>]) -> Self {
        let mut reached = Self::default();
        for moment in moments {
            if let Event::Input(_, Output::Hands(Item::Record { receipt })) = moment.event {
                let order = matches!(receipt.decision, Decision::Executed | Decision::Failed);
                reached.admitted += usize::from(order);
                reached.receipts += 1;
            }
            reached.cut = moment.place.awaited.is_some();
        }
        reached
    }

    pub fn over_replay(&self) -> bool {
        self.admitted > REPLAY_CAPACITY
    }

    pub fn over_ring(&self) -> bool {
        self.receipts > RECEIPT_CAPACITY
    }
}

impl Fact {
    pub fn name(&self) -> String {
        format!("life{}", self.label)
    }
}

/// So many lives, with what is to be proved of them.
pub fn facts(seed: u64, lives: u64, calls: u64) -> Vec<Fact> {
    let choice = choose(seed, lives, calls);
    let new = choice.new.iter().map(|n| (*n, false));
    let others = choice.others.iter().map(|n| (*n, !is_long(*n)));
    let mut all: Vec<(u64, bool)> = new.chain(others).collect();
    all.sort_unstable();
    let facts = all.into_iter();
    facts
        .map(|(number, may_be_cut)| fact(seed, number, calls, may_be_cut))
        .collect()
}

/// The life of this number.
pub fn life(seed: u64, number: u64, calls: u64) -> Life {
    let mut life = match number % EVERY {
        _ if is_long(number) => long_life(seed, number),
        9 if oracle::HAS_COUNTERS => top_life(seed, number, calls),
        _ => usual_life(seed, number, calls),
    };
    vary(&mut life, &mut Prng::new(!seed, number));
    life
}

/// What is to be proved of the life of this number. Its history may be cut anywhere.
fn fact(seed: u64, number: u64, calls: u64, may_be_cut: bool) -> Fact {
    let life = life(seed, number, calls);
    let trace = run_life(&life, Options::ALL);
    let mut moments = moments(&trace);
    let mut rng = Prng::new(!seed, !number);
    if may_be_cut && rng.percent(50) {
        moments.truncate(1 + rng.index(moments.len()));
    }
    let own_calls = life.steps.iter().map(|step| step.call);
    let own_calls: Vec<Call> = own_calls.filter(|call| call.now().is_some()).collect();
    let script = weave(&moments, &own_calls, &mut rng);
    let long = is_long(number);
    let most = if long { BOOKS_OF_A_LONG_LIFE } else { BOOKS };
    Fact {
        label: number.to_string(),
        outputs: outputs(&script),
        books: books(some_places(&moments, &script, most, &mut rng)),
        reached: Reached::by(&moments),
        life,
        script,
    }
}

/// What is to be proved of a life that was written by hand, with nothing put in: the book is
/// compared at every place.
pub fn directed(name: &str, life: Life) -> Fact {
    let trace = run_life(&life, Options::ALL);
    let moments = moments(&trace);
    let script = plain(&moments);
    Fact {
        label: format!("-{name}"),
        outputs: outputs(&script),
        books: books(places(&moments, &script)),
        reached: Reached::by(&moments),
        life,
        script,
    }
}

fn outputs(script: &Script) -> Vec<String> {
    script.outputs().map(|o| text::output(&o)).collect()
}

/// Whether the life of this number is one of the long ones.
pub const fn is_long(number: u64) -> bool {
    number % EVERY == EVERY - 1
}

/// Where the life itself stands after each output that is not woven in.
fn places<'a>(moments: &[Moment<'a>], script: &Script) -> Vec<(usize, Place<'a>)> {
    let turns = script.turns().enumerate().filter(|(_, turn)| !turn.woven);
    let places = std::iter::once(0).chain(turns.map(|(n, _)| n + 1));
    let outputs = moments
        .iter()
        .filter(|m| !matches!(m.event, Event::Set(..)));
    places.zip(outputs.map(|moment| moment.place)).collect()
}

/// Some waits, and the end.
fn some_places<'a>(
    moments: &[Moment<'a>],
    script: &Script,
    most: usize,
    rng: &mut Prng,
) -> Vec<(usize, Place<'a>)> {
    let is_wait = |p: &Place<'_>| p.awaited.is_some() && p.readings.is_some();
    let mut waits = places(moments, script);
    waits.retain(|(_, place)| is_wait(place));
    let mut picked: Vec<_> = (0..most).filter_map(|_| rng.pick(&waits)).collect();
    picked.sort_by_key(|(place, _)| *place);
    picked.dedup_by_key(|(place, _)| *place);
    let end = moments
        .last()
        .map(|m| (script.outputs().count() - 1, m.place));
    picked.extend(end);
    picked
}

/// The books at these places; none in the build without `counters`.
fn books(mut places: Vec<(usize, Place<'_>)>) -> Vec<Seen> {
    places.retain(|_| oracle::HAS_COUNTERS);
    let books = places.iter();
    books.map(|(place, at)| seen(*place, at)).collect()
}

fn seen(place: usize, at: &Place<'_>) -> Seen {
    let hidden = at.readings.and_then(|r| Some((r, r.hidden.as_ref()?)));
    Seen {
        place,
        awaited: at.awaited,
        book: hidden.map(|(readings, hidden)| text::book(readings, hidden)),
    }
}

fn usual_life(seed: u64, number: u64, calls: u64) -> Life {
    let mut generator = Generator::new(seed);
    generator.calls = calls;
    let mut life = generator.life(number);
    let calls = usize::try_from(calls).unwrap_or(usize::MAX);
    life.steps.truncate(calls);
    life
}

/// The first life, of those that have this number among others, that is as wanted.
fn find(number: u64, life: impl Fn(u64) -> Life, wanted: impl Fn(&LifeTrace) -> bool) -> Life {
    let mut candidates = (1u64..).map(|n| life((n << 32) + number));
    let found = candidates.find(|life| wanted(&run_life(life, Options::default())));
    found.expect("there are more lives than anyone can count")
}

/// A life that goes past the capacities of both rings.
fn long_life(seed: u64, number: u64) -> Life {
    let generator = Generator {
        seed,
        calls: LONG_CALLS,
        counters: false,
    };
    let long = |trace: &LifeTrace| {
        let reached = Reached::by(&moments(trace));
        reached.over_replay() && reached.over_ring()
    };
    find(number, |n| generator.life(n), long)
}

/// A life in which one counter alone is set and a tick finds it at the top, each of the three
/// in turn; in every fourth such life the clock goes back after that.
fn top_life(seed: u64, number: u64, calls: u64) -> Life {
    let turn = usize::try_from(number / EVERY % 4).unwrap_or(0);
    let wanted = |trace: &LifeTrace| {
        let sets = trace.calls.iter().filter_map(|call| match call.step.call {
            Call::Set { counter, .. } => Some(counter),
            _ => None,
        });
        let sets: Vec<Counter> = sets.collect();
        let mut full = fallbacks(trace, Reason::Faulted);
        let Some(full) = full.next() else {
            return false;
        };
        match Counter::EXHAUSTIBLE.get(turn) {
            Some(counter) => sets == [*counter],
            None => sets.len() == 1 && fallbacks(trace, Reason::Clock).any(|n| n > full),
        }
    };
    let calls = calls.max(TOP_CALLS);
    find(number, |n| usual_life(seed, n, calls), wanted)
}

/// The places of the calls that fall back with this reason.
fn fallbacks(trace: &LifeTrace, wanted: Reason) -> impl Iterator<Item = usize> + '_ {
    let is_wanted = move |item: &Item| match item {
        Item::Fallback { reason, .. } => *reason == wanted,
        _ => false,
    };
    let calls = trace.calls.iter().enumerate();
    let calls = calls.filter(move |(_, call)| call.items.iter().any(|i| is_wanted(&i.item)));
    calls.map(|(n, _)| n)
}

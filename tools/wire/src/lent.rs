//! The functions over lent words, by the Rust original, for tests. The words hold no more than the
//! number of a state; an older copy is gone on from by running again what led to it.

use crate::format::layout::InputKind;
use crate::format::word::Word;
use crate::format::{Input, InputWords, Output, INPUT_WORDS, OUTPUT_WORDS};
use crate::host::{Asked, Host, Told, CAPABILITY_FIELDS, FIRST, START_FIELDS, STATE_WORDS};
use crate::host::{ITEM, MALFORMED, OTHER, OTHER_RECORD, SHORT};
use crate::machine::{Flaw, Running};
use definitions::turns::Reading;

/// Something that is not as it should be.
#[derive(Clone, Copy, Debug, Default, PartialEq, Eq)]
pub enum Spoil {
    #[default]
    None,
    /// In the Rust below.
    Flaw(Flaw),
    /// A reading by its record alters a word.
    Reads,
    /// A call while a reply is awaited alters a word.
    Refuses,
    /// A malformed record alters a word.
    Malformed,
    /// A poll that saw a raise is answered as one that saw none.
    Polls,
    /// The lease that was granted or renewed is told with another number.
    Leased,
    /// The receipt of a settled order is told with another number.
    Settled,
    /// Every refusal is told to be for the same reason.
    Refusal,
    /// The lease of axis 1 is not told by its name.
    Named,
    /// The awaited item is not told.
    Item,
    /// One word too few is taken.
    Short,
    /// Another first word is taken.
    First,
    /// One word of room too little is taken.
    Room,
    /// A start by its function keeps what records have listed.
    Listed,
    /// A slice with a word too many is taken.
    Slice,
    /// One word behind the record is written.
    Behind,
}

#[derive(Default)]
pub struct Lent {
    spoil: Spoil,
    running: Running,
    /// The number of the state that is running.
    at: u64,
    /// The answer that it came with.
    answered: Option<Output>,
    /// The states since the words were cleared, by their numbers from the first one on.
    first: u64,
    states: Vec<State>,
}

/// How a state came about.
struct State {
    /// The number of the one before; none: from nothing.
    before: Option<u64>,
    inputs: Vec<Input>,
}

/// The word with the number of the state, and one that only a spoil alters.
const NUMBER: usize = 1;
const SPOILED: usize = 2;

impl Lent {
    pub fn new(spoil: Spoil) -> Self {
        let mut lent = Self {
            spoil,
            ..Self::default()
        };
        lent.begin();
        lent
    }

    /// Runs nothing.
    fn begin(&mut self) {
        self.running = Running::new(match self.spoil {
            Spoil::Flaw(flaw) => flaw,
            _ => Flaw::None,
        });
        self.answered = None;
    }

    /// Runs the state of this number.
    ///
    /// # Panics
    /// If it is from before the words were cleared.
    fn go_to(&mut self, number: u64) {
        if number == self.at {
            return;
        }
        let mut way = Vec::new();
        let mut next = Some(number);
        while let Some(number) = next {
            let place = number.checked_sub(self.first).expect("no older state");
            let state = &self.states[place as usize];
            way.extend(state.inputs.iter().rev().copied());
            next = state.before;
        }
        self.begin();
        for input in way.iter().rev() {
            self.answered = Some(self.running.react(input));
        }
        self.at = number;
    }

    fn moved(&mut self, state: &mut [u64], before: Option<u64>, inputs: Vec<Input>) {
        self.states.push(State { before, inputs });
        self.at = self.first + self.states.len() as u64 - 1;
        state[NUMBER] = self.at;
    }

    fn fault(&self, state: &[u64]) -> u32 {
        let least = STATE_WORDS - usize::from(self.spoil == Spoil::Short);
        if state.len() < least || state.len() > STATE_WORDS {
            SHORT
        } else if state[0] != FIRST && self.spoil != Spoil::First {
            OTHER
        } else {
            0
        }
    }

    fn lack(&self, state: &[u64], out: &[u64]) -> u32 {
        let least = OUTPUT_WORDS - usize::from(self.spoil == Spoil::Room);
        match self.fault(state) {
            0 if out.len() < least => SHORT,
            fault => fault,
        }
    }

    fn react(&mut self, state: &mut [u64], input: &Input) -> Output {
        // Words that only a spoil takes are no state to go on from.
        if state.len() < STATE_WORDS || state[0] != FIRST {
            return Output::Returned;
        }
        self.go_to(state[NUMBER]);
        let output = self.running.react(input);
        let left = match output {
            Output::Item(number, _) => number != 0,
            Output::NoRuntime | Output::Unawaited | Output::Malformed => true,
            _ => matches!(input, Input::Read(_)),
        };
        if !left {
            self.answered = Some(output);
            self.moved(state, Some(self.at), vec![*input]);
        }
        let spoiled = match self.spoil {
            Spoil::Reads => matches!(input, Input::Read(Reading::Snapshot)),
            Spoil::Refuses => matches!(output, Output::Item(111, _)),
            Spoil::Malformed => output == Output::Malformed,
            _ => false,
        };
        state[SPOILED] = state[SPOILED].wrapping_add(spoiled.into());
        output
    }

    fn number(&self, output: Output) -> u32 {
        match output {
            Output::Item(0, _) => ITEM,
            Output::Item(number, _) | Output::StartRefused(number) => number.into(),
            Output::Unawaited => 112,
            Output::Polled(true) if self.spoil != Spoil::Polls => 38,
            other => other.kind().number() as u32,
        }
    }

    fn start(&mut self, state: &mut [u64], start: &[u64], capabilities: &[u64]) -> u32 {
        if state.len() != STATE_WORDS {
            return SHORT;
        }
        let begin = record(InputKind::Start, START_FIELDS, start);
        let listed = capabilities.chunks(CAPABILITY_FIELDS);
        let listed = listed.map(|fields| record(InputKind::Capability, CAPABILITY_FIELDS, fields));
        let listed: Option<Vec<Input>> = listed.collect();
        let (Some(begin), Some(listed)) = (begin, listed) else {
            return MALFORMED;
        };
        state[0] = FIRST;
        let before = (self.spoil == Spoil::Listed).then_some(self.at);
        if before.is_none() {
            self.begin();
        }
        let inputs: Vec<Input> = listed.into_iter().chain([begin]).collect();
        let outputs = inputs.iter().map(|input| self.running.react(input));
        let output = outputs.last().unwrap_or(Output::NoRuntime);
        self.answered = Some(output);
        self.moved(state, before, inputs);
        self.number(output)
    }

    fn feed(&mut self, state: &mut [u64], input: Option<Input>) -> u32 {
        match self.fault(state) {
            0 => {}
            fault => return fault,
        }
        let Some(input) = input else {
            return MALFORMED;
        };
        let output = self.react(state, &input);
        self.number(output)
    }

    fn told(&mut self, told: Told) -> Output {
        match (told, self.answered) {
            (Told::Item, _) => match self.running.awaited() {
                Some(item) if self.spoil != Spoil::Item => Output::Item(0, *item),
                _ => Output::Unawaited,
            },
            (Told::AnsweredLease, Some(Output::Leased(mut lease))) => {
                lease.id += u64::from(self.spoil == Spoil::Leased);
                Output::Leased(lease)
            }
            (Told::AnsweredReceipt, Some(Output::Settled(mut receipt))) => {
                receipt.receipt_id += u64::from(self.spoil == Spoil::Settled);
                Output::Settled(receipt)
            }
            (Told::Reading(Reading::Lease(1)), _) if self.spoil == Spoil::Named => {
                Output::Lease(None)
            }
            (Told::Reading(reading), _) => self.running.react(&Input::Read(reading)),
            // There is none: anything may be told.
            _ => Output::Unawaited,
        }
    }

    fn give(&self, out: &mut [u64], output: Output) -> u32 {
        let words = output.words();
        let room = out.len().min(OUTPUT_WORDS);
        out[..room].copy_from_slice(&words[..room]);
        if let Some(behind) = out.get_mut(OUTPUT_WORDS) {
            *behind ^= u64::from(self.spoil == Spoil::Behind);
        }
        words[0] as u32
    }
}

impl Host for Lent {
    fn ask(&mut self, state: &mut [u64], asked: &Asked<'_>) -> u32 {
        match asked {
            Asked::Clear if state.len() != STATE_WORDS => SHORT,
            Asked::Clear => {
                state[0] = FIRST;
                self.first += self.states.len() as u64;
                self.states.clear();
                self.begin();
                self.moved(state, None, Vec::new());
                0
            }
            Asked::New {
                start,
                capabilities,
            } => self.start(state, start, capabilities),
            _ => {
                let input = self.input(asked);
                self.feed(state, input)
            }
        }
    }

    fn tell(&mut self, state: &[u64], told: Told, out: &mut [u64]) -> u32 {
        match self.lack(state, out) {
            0 => {}
            lack => return lack,
        }
        if state.len() == STATE_WORDS && state[0] == FIRST {
            self.go_to(state[NUMBER]);
        }
        let output = self.told(told);
        self.give(out, output)
    }

    fn refusal(&mut self, state: &[u64]) -> u32 {
        match (self.fault(state), self.answered) {
            (0, _) if self.spoil == Spoil::Refusal => 1,
            (0, Some(Output::Refused(reason))) => reason.word() as u32,
            (fault, _) => fault,
        }
    }

    fn step(&mut self, state: &mut [u64], record: &[u64], out: &mut [u64]) -> u32 {
        match self.lack(state, out) {
            0 => {}
            lack => return lack,
        }
        let Ok(words) = InputWords::try_from(record) else {
            return OTHER_RECORD;
        };
        let output = match out.len() {
            OUTPUT_WORDS.. => self.react(state, &Input::of(&words)),
            _ => Output::Returned,
        };
        self.give(out, output)
    }
}

impl Lent {
    /// None for slices that are no fields of a record.
    fn input(&self, asked: &Asked<'_>) -> Option<Input> {
        let of = |kind: InputKind, fields: &[u64]| record(kind, fields.len(), fields);
        match *asked {
            Asked::Clear | Asked::New { .. } => None,
            Asked::Tick { time } => of(InputKind::Tick, &[time]),
            Asked::UpdateState { flags, time } => of(InputKind::UpdateState, &[time, flags.word()]),
            Asked::EmergencyStop { time } => of(InputKind::EmergencyStop, &[time]),
            Asked::PollEstop { raised, time } => of(InputKind::PollEstop, &[time, raised.word()]),
            Asked::RecoverLocal { time } => of(InputKind::RecoverLocal, &[time]),
            Asked::Acquire(fields) if fields.len() == 10 && self.spoil == Spoil::Slice => {
                Some(Input::Read(Reading::State))
            }
            Asked::Acquire(fields) => record(InputKind::Acquire, 9, fields),
            Asked::Renew {
                owner,
                lease,
                renewal,
                duration_ms,
                time,
            } => of(
                InputKind::Renew,
                &[time, owner, lease, renewal, duration_ms.word()],
            ),
            Asked::Cancel { owner, lease, time } => of(InputKind::Cancel, &[time, owner, lease]),
            Asked::Submit(fields) => record(InputKind::Submit, 15, fields),
            Asked::Observed { ok, values, sensed } => {
                let [value0, value1] = values.map(Word::word);
                of(
                    InputKind::Observed,
                    &[ok.word(), value0, value1, sensed.word()],
                )
            }
            Asked::Executed(ok) => of(InputKind::Executed, &[ok.word()]),
            Asked::FellBack(ok) => of(InputKind::FellBack, &[ok.word()]),
            Asked::Recorded => of(InputKind::Recorded, &[]),
        }
    }
}

/// The record of a kind with these fields; none if there are more or fewer, or one does not fit.
fn record(kind: InputKind, count: usize, fields: &[u64]) -> Option<Input> {
    if fields.len() != count {
        return None;
    }
    let mut words = [0; INPUT_WORDS];
    words[0] = kind.number();
    words[1..=count].copy_from_slice(fields);
    match Input::of(&words) {
        Input::Malformed(_) => None,
        input => Some(input),
    }
}
